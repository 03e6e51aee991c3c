"""A model of one end of the line, written from the state table in words alone, by somebody who had not seen the program.

Texts are Python texts with one character for each byte. Frames are tuples:
('ENQ',), ('ACK0',), ('ACK1',), ('NAK',), ('EOT',), ('HEADER', text),
('BLOCK', text, last), ('DAMAGED',), ('BAD',).
"""

import re

MOST_TRIES = 10
MOST_QUIETS = 30
MOST_TEXT = 270000
MOST_BLOCK = 512
QUIETS_BEFORE_EOT = 3

ENQ, ACK0, ACK1, NAK, EOT = ('ENQ',), ('ACK0',), ('ACK1',), ('NAK',), ('EOT',)

# A text byte is 20 to 7E, CR or LF.
# The supplier's header: an id, one letter of either case, six text bytes.
FIRST_HEADER = re.compile(r'([\x20-\x7e\r\n]{10})[A-Za-z][\x20-\x7e\r\n]{6}')
# The receiver's header: two digits, an id, six text bytes.
SECOND_HEADER = re.compile(r'([0-9]{2})([\x20-\x7e\r\n]{10})[\x20-\x7e\r\n]{6}')
# A block that can be spelled holds 1 to 512 text bytes.
BLOCK_TEXT = re.compile(r'[\x20-\x7e\r\n]{1,%d}' % MOST_BLOCK)


def reply_of(k):
    """The answer to frame k: the odd ones get Ack1, the even ones Ack0."""
    return ACK1 if k % 2 == 1 else ACK0


class Line:
    # The stages: 'FIRST' is the supplier's header turn, 'SECOND' is the
    # receiver's header turn, 'TEXTS' is every turn after them.
    # The states: 'READY', 'BIDDING', 'AWAITING', 'SENTALL', 'INTEXT',
    # 'FINISHED', 'ENDED'.

    def __init__(self, role, own, peer):
        if role not in ('S', 'R'):
            raise ValueError('role is S or R')
        self.role = role
        self.own = own
        self.peer = peer
        self.stage = 'FIRST'
        self.ending = None
        self.quiets = 0         # Quiets in a row, one count for the session
        self.bare = 0           # text turns in a row without a block
        # what is sent
        self.load = []          # frames of the own turn
        self.k = 0              # number of the frame whose reply is awaited
        self.tries = 0          # how often that frame was said
        self.last_was_enq = False   # in AWAITING: Enq was said after frame k
        self.wrong = None       # the id of a partner that code 01 turns away
        # what is heard
        self.reply = None       # last Ack0 or Ack1 of this turn, never Nak
        self.header = None      # the header kept in a header turn
        self.heard_text = ''
        self.taken = 0          # blocks taken in this turn
        self.whole = False      # a block marked last was taken
        self.handed = ''        # what the turn before the own turn handed on
        if role == 'S':
            # The supplier bids first: it says Enq and has its header to send.
            self.load = [('HEADER', own + 'S' + 'R01L01')]
            self.state = 'BIDDING'
            self.said = ENQ
        else:
            # The receiver says nothing and waits for the first Enq.
            self.state = 'READY'
            self.said = None

    # ---- what the outside calls -------------------------------------------

    def hear(self, frame):
        # An ended line stays as it is and says nothing.
        if self.state == 'ENDED':
            return None
        # Every frame heard, an ignored or a bad one too, ends a row of Quiets.
        self.quiets = 0
        if self.state == 'READY':
            return self._hear_ready(frame)
        if self.state == 'BIDDING':
            return self._hear_bidding(frame)
        if self.state == 'AWAITING':
            return self._hear_awaiting(frame)
        if self.state == 'SENTALL':
            return self._hear_sentall(frame)
        if self.state == 'INTEXT':
            return self._hear_intext(frame)
        # Finished: every frame is ignored, only give goes on from here.
        return None

    def quiet(self):
        # An ended line stays as it is and says nothing.
        if self.state == 'ENDED':
            return None
        # One count for the session: a change of state keeps it, and it counts
        # in every state, also where the own turn waits to be given.
        self.quiets += 1
        # The thirtieth Quiet in a row ends every state and says nothing.
        if self.quiets >= MOST_QUIETS:
            return self._finish(('SILENT',))
        # Bidding and Quiet: Enq again, still bidding.
        if self.state == 'BIDDING':
            return ENQ
        # Awaiting and Quiet: Enq, to hear the last reply again; the tries
        # stay, and a Nak that comes now is a Nak to this Enq.
        if self.state == 'AWAITING':
            self.last_was_enq = True
            return ENQ
        # All sent and Quiet: Eot again at every third Quiet in a row.
        if self.state == 'SENTALL' and self.quiets % QUIETS_BEFORE_EOT == 0:
            return EOT
        # Ready, in text, finished: a Quiet is counted and nothing is said.
        return None

    def unplug(self):
        # Every state that is not ended: nothing said, ended as unplugged.
        if self.state != 'ENDED':
            self._finish(('UNPLUGGED',))
        return None

    def turn(self):
        # A text only where the own turn must be given; empty where no whole
        # text was heard (also before the supplier's first text turn).
        return self.handed if self.state == 'FINISHED' else None

    def give(self, blocks):
        # Finished and given a load, an empty one too: Enq, then bidding.
        # The count of Quiets stays. In any other state nothing happens.
        if self.state != 'FINISHED':
            return None
        return self._bid([('BLOCK', text, bool(last)) for text, last in blocks])

    def end(self):
        return self.ending

    # ---- the rows, state by state -----------------------------------------

    def _hear_ready(self, frame):
        # Ready and Enq: Ack0, the partner's turn begins.
        if frame == ENQ:
            return self._begin_hearing()
        return None

    def _hear_bidding(self, frame):
        if frame == ACK0:
            # Bidding and Ack0, nothing to send: Eot, all is sent.
            if not self.load:
                return self._all_sent()
            # Bidding and Ack0, something to send: frame 1, its first try.
            return self._speak(1)
        # Bidding and Eot (the partner ends its turn again): Enq again.
        if frame == EOT:
            return ENQ
        return None

    def _hear_awaiting(self, frame):
        if frame == reply_of(self.k):
            # The reply of frame k, no more frames: Eot, all is sent.
            if self.k == len(self.load):
                return self._all_sent()
            # The reply of frame k, more frames: the next one, its first try.
            return self._speak(self.k + 1)
        # The other reply, whatever was said last; or a Nak to frame k itself:
        # frame k again, one try more; after the tenth try nothing is said and
        # the line ends, naming k.
        if (frame == reply_of(self.k + 1)
                or (frame == NAK and not self.last_was_enq)):
            if self.tries >= MOST_TRIES:
                return self._finish(('TRIES', self.k))
            self.tries += 1
            self.last_was_enq = False
            return self.load[self.k - 1]
        # A Nak to an Enq: the Enq again, the tries stay.
        if frame == NAK:
            return ENQ
        return None

    def _hear_sentall(self, frame):
        # All sent and Enq (the partner bids): Ack0, the partner's turn begins,
        # after a header turn in the stage that follows.
        if frame == ENQ:
            if self.stage == 'FIRST':
                self.stage = 'SECOND'
            elif self.stage == 'SECOND':
                self.stage = 'TEXTS'
            return self._begin_hearing()
        return None

    def _hear_intext(self, frame):
        # Enq: the last Ack0 or Ack1 of this turn again.
        if frame == ENQ:
            return self.reply
        # A damaged frame: Nak; it does not become the last reply.
        if frame == ('DAMAGED',):
            return NAK
        if self.stage == 'TEXTS':
            if frame[0] == 'BLOCK':
                return self._hear_block(frame[1], frame[2])
            # Eot in the text stage: nothing said, the own turn comes.
            if frame == EOT:
                return self._text_over()
            return None
        if frame[0] == 'HEADER':
            return self._hear_header(frame[1])
        # Eot in a header turn counts only where a header was heard.
        if frame == EOT and self.header is not None:
            return self._header_over()
        return None

    def _hear_header(self, text):
        # The form comes first: a header of another form is ignored, as the
        # first and as a later one.
        form = FIRST_HEADER if self.stage == 'FIRST' else SECOND_HEADER
        found = form.fullmatch(text)
        if found is None:
            return None
        # The first header of the turn: Ack1, and it is kept.
        # A later one: the last reply again, the first stays kept.
        if self.header is None:
            self.header = found.groups()
            self.reply = ACK1
        return self.reply

    def _hear_block(self, text, last):
        # A block that cannot be spelled (an empty one above all) is ignored.
        if BLOCK_TEXT.fullmatch(text) is None:
            return None
        # A block after one marked last: the last reply again, not taken.
        if self.whole:
            return self.reply
        # A block that would make the text too long: nothing said, ended.
        if len(self.heard_text) + len(text) > MOST_TEXT:
            return self._finish(('LIMIT',))
        # Any other block is taken: the reply of its number in this turn.
        self.heard_text += text
        self.taken += 1
        self.whole = bool(last)
        self.reply = reply_of(self.taken)
        return self.reply

    def _header_over(self):
        if self.stage == 'FIRST':
            # The receiver heard the supplier's header and Eot: it says Enq and
            # bids its own header, 00 to its peer and 01 to anyone else.
            (ident,) = self.header
            code = '00'
            if ident != self.peer:
                code = '01'
                self.wrong = ident
            self.stage = 'SECOND'
            return self._bid([('HEADER', code + self.own + 'R01L01')])
        # The supplier heard the receiver's header and Eot: refused where the
        # code is not 00, then wrong partner where the id is not its peer, else
        # the text stage begins with its own turn and nothing handed on.
        code, ident = self.header
        if code != '00':
            return self._finish(('REFUSED', code))
        if ident != self.peer:
            return self._finish(('WRONG', ident))
        self.stage = 'TEXTS'
        self.handed = ''
        self.state = 'FINISHED'
        return None

    def _text_over(self):
        # The text counts where a block marked last was taken, else it is
        # dropped; the turn had a block where any was taken.
        self.handed = self.heard_text if self.whole else ''
        # Complete where this is the second text turn in a row without a block.
        if self._turn_over(self.taken > 0):
            return self._finish(('COMPLETE',))
        self.state = 'FINISHED'
        return None

    # ---- helps ------------------------------------------------------------

    def _begin_hearing(self):
        self.state = 'INTEXT'
        self.reply = ACK0
        self.header = None
        self.heard_text = ''
        self.taken = 0
        self.whole = False
        return ACK0

    def _bid(self, load):
        self.load = load
        self.k = 0
        self.tries = 0
        self.state = 'BIDDING'
        return ENQ

    def _speak(self, k):
        self.state = 'AWAITING'
        self.k = k
        self.tries = 1
        self.last_was_enq = False
        return self.load[k - 1]

    def _all_sent(self):
        # The Eot of the own turn. It ends the receiver that turned its partner
        # away; it completes the line where it is the Eot of the second text
        # turn in a row without a block; else the partner's bid is awaited.
        self.state = 'SENTALL'
        if self.stage == 'SECOND' and self.wrong is not None:
            self._finish(('WRONG', self.wrong))
        elif self.stage == 'TEXTS' and self._turn_over(bool(self.load)):
            self._finish(('COMPLETE',))
        return EOT

    def _turn_over(self, had_block):
        self.bare = 0 if had_block else self.bare + 1
        return self.bare >= 2

    def _finish(self, ending):
        self.state = 'ENDED'
        self.ending = ending
        return None
