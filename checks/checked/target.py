"""A debug port with a memory access port in Python, right or with one bug, and a host that sends it what it likes. Half of
the right ones give a pending write up.

A port with the bug csw_disabled or tar_low_bits is right, though the model's isn't so.

`session(rng, bug, clean, start)` returns the items of a trace, in the form of `reference.py`.
"""
BASE = 0x20000000
BUGS = """unreset_answers fresh_answers fresh_status reset_keeps_live status_faults abort_faults dpidr_faults
damage_no_fault sticky_no_fault rdbuff_no_fault select_no_fault unpowered_ok unpowered_not_sticky wait_first
wait_executes readok_at_wait readok_at_fault damage_done damage_ignored abort_damage_ignored stkerrclr_nothing
wderrclr_nothing wderrclr_all dapabort_clears not_posted rdbuff_zero rdbuff_last resend_buffer resend_zero
resend_once fault_executes tar_stays tar_always tar_by_8 tar_not_by_writes tar_within_256 error_silent
error_is_damage reset_clears_flags reset_clears_power reset_clears_tar reset_clears_csw reset_no_damage
status_swapped readok_always readok_any power_by_ack dpidr_even dpidr_changes bank_ignored csw_byte csw_off
csw_clears_tar ap8_is_tar tar_late parity_high clear_forgets_resend status_waits
abort_waits resend_no_fault unpowered_writes_ok damage_done_flagged stkerrclr_all rdbuff_transfers
buffer_kept_in_bank resend_skips_rdbuff resend_moves_tar read_after_fault write_twice status_drops_write
fifth_write_lost tar_by_1 tar_packed tar_within_4096 tar_stops_at_1024 error_late error_reads_zero error_loses_write
error_each_7th reset_clears_select reset_drops_transfer reset_clears_readok status_keeps_word status_bit_31
dp_bank_ignored ap_bank_ignored ap_ignored dp_c_selects csw_in_progress csw_upper_zero ap8_is_csw tar_16_bits
byte_lost aliased stale_read zero_sticks tar_wraps_early resend_sets_readok dpidr_empties ap_ff_is_0 wderrclr_waits
wdataerr_hides second_dpidr_silent power_goes_with_both damaged_drw_made""".split()
EXEMPT = {("dp", 0, "read"), ("dp", 0, "write")}
FAULTLESS = (("rdbuff_no_fault", ("dp", 12, "read")), ("select_no_fault", ("dp", 8, "write")),
             ("resend_no_fault", ("dp", 8, "read")))


class Target:
    def __init__(self, rng, bug):
        self.rng, self.bug = rng, bug
        # whether it has a write buffer: it may give a pending write up at a request that can't wait
        self.buffers = bug is None and rng.random() < 0.5
        self.reset, self.sticky, self.damaged, self.readok = "none", False, False, False
        self.powers, self.ups = [False, False], ["unseen", "unseen"]
        self.select, self.single, self.tar, self.buffer, self.last, self.pending = 0, False, 0, None, None, None
        self.awaits, self.ident, self.resets, self.tar_next = False, 0x2BA01477, 0, None
        self.memory, self.stale = {}, {}
        self.transfers, self.kept, self.owed, self.reads_again, self.asked = 0, 0, False, False, None

    def word(self):
        return self.rng.choice([0, 0xFFFFFFFF, self.rng.getrandbits(32)])

    def memap(self):
        if self.bug == "ap_ff_is_0" and self.select >> 24 == 0xFF:
            return self.select & 0xF0 == 0
        seen = {"bank_ignored": 0, "ap_bank_ignored": 0xFF000000, "ap_ignored": 0xF0}.get(self.bug, 0xFF0000F0)
        return self.select & seen == 0

    def bank0(self):
        return self.bug in ("bank_ignored", "dp_bank_ignored") or self.select & 15 == 0

    def at(self):
        """The address of a transfer."""
        at = self.tar if self.tar is not None else self.rng.getrandbits(32)
        return at & ~0x400 if self.bug == "aliased" else at

    def fails(self):
        if self.bug == "error_each_7th" and (self.transfers + 1) % 7 == 0:
            return True
        if self.bug == {"read": "error_reads_zero", "write": "error_loses_write"}[self.pending[0]]:
            return False
        return not BASE <= self.at() < BASE + 0x1000 or self.rng.random() < 0.02

    def complete(self, failed=None):
        """The pending transfer takes effect."""
        if self.pending is None:
            return
        failed = self.fails() if failed is None else failed
        kind, self.pending = self.pending, None
        self.transfers += 1
        if failed:
            if self.bug != "error_silent":
                is_damage = self.bug == "error_is_damage"
                self.damaged, self.sticky = self.damaged or is_damage, self.sticky or not is_damage
            self.tar, self.buffer = None, None
            return
        if kind[0] == "read":
            self.buffer = self.fetch()
        else:
            self.store(kind[1])
        self.move_tar(kind[0])

    def fetch(self):
        """The word of a read that takes effect."""
        at = self.at()
        if self.bug == "error_reads_zero" and not BASE <= at < BASE + 0x1000:
            return 0
        word = self.memory.get(at, self.word())
        if self.bug == "stale_read":
            word, self.stale[at] = self.stale.get(at, word), word
        return word

    def store(self, word):
        """A write takes effect."""
        at = self.at()
        lost = self.bug == "fifth_write_lost" and self.transfers % 5 == 0
        if self.tar is None or lost or not BASE <= at < BASE + 0x1000:
            return
        old = self.memory.get(at, 0)
        if self.bug == "byte_lost":
            word = word & 0xFFFFFF | old & 0xFF000000
        if not (self.bug == "zero_sticks" and self.memory.get(at) == 0 and at in self.stale):
            self.memory[at] = word
        self.stale.setdefault(at, word) if self.bug == "zero_sticks" and word == 0 else None
        if self.bug == "write_twice" and self.single and at + 4 < BASE + 0x1000:
            self.memory[at + 4] = word

    def move_tar(self, kind):
        """TAR after a transfer."""
        if self.tar_next is not None:
            self.tar, self.tar_next = self.tar_next, None
        packed = self.bug == "tar_packed" and self.kept >> 4 & 3 > 1
        grows = self.single or self.bug == "tar_always" or packed
        if self.bug == "tar_stays" or (self.bug == "tar_not_by_writes" and kind == "write"):
            grows = False
        if grows and self.tar is not None:
            self.tar = self.next_address()

    def next_address(self):
        """The address behind TAR's."""
        step = {"tar_by_8": 8, "tar_by_1": 1}.get(self.bug, 4)
        size = {"tar_within_256": 256, "tar_within_4096": 4096}.get(self.bug, 1024)
        if self.bug == "tar_wraps_early" and self.tar % size + step == size - 4:
            return self.tar - self.tar % size
        if self.tar % size + step < size:
            return self.tar + step
        if self.bug == "tar_stops_at_1024":
            return self.tar
        if size != 1024:
            return self.tar - self.tar % size
        return self.rng.choice([self.tar - self.tar % size, self.tar + step, None])

    def answer(self, request, busy):
        """`ok`, `wait`, `fault` or nothing."""
        bug, status = self.bug, request == ("dp", 4, "read") and self.bank0()
        if self.reset == "none" and bug != "unreset_answers":
            return None
        if self.reset == "fresh" and request != ("dp", 0, "read"):
            if not (bug == "fresh_answers" or (bug == "fresh_status" and status)):
                return None
        flags = self.sticky or self.damaged
        if bug == "second_dpidr_silent" and request == self.asked == ("dp", 0, "read"):
            return None
        if request in EXEMPT or status:
            if busy and self.bug == {4: "status_waits", 0: "abort_waits"}[request[1]] and request != ("dp", 0, "read"):
                return "wait"
            if status and bug == "status_drops_write" and self.pending is not None and self.pending[0] == "write":
                self.pending = None
            name = {"read": "status_faults" if status else "dpidr_faults", "write": "abort_faults"}[request[2]]
            return "fault" if flags and bug == name else "ok"
        sticky, damaged = self.sticky and bug != "sticky_no_fault", self.damaged and bug != "damage_no_fault"
        if (bug, request) in FAULTLESS:
            sticky = damaged = False
        dark = request[0] == "ap" and not (self.powers[0] and self.ups[0] != "late") and bug != "unpowered_ok"
        dark = dark and not (bug == "unpowered_writes_ok" and request[2] == "write")
        dark = dark and not (bug == "power_goes_with_both" and self.powers[1])
        if busy and bug == "wait_first":
            return "wait"
        if busy and not (sticky or damaged or dark):
            if bug == "wait_executes" and request == ("ap", 12, "write") and self.memap() and self.pending is None:
                self.pending = ("write", 0)
                self.complete()
            return "wait"
        before = self.sticky
        self.complete()
        if dark and bug != "unpowered_not_sticky":
            self.sticky = True
        sticky = self.sticky and bug != "sticky_no_fault" and (bug, request) not in FAULTLESS
        if bug == "error_late" and not before and not dark:
            sticky = False
        return "fault" if sticky or damaged or dark else "ok"

    def ask(self, request, busy):
        if self.pending is not None and self.rng.random() < 0.5:
            self.complete()
        end = self.answer(request, busy)
        exempt = request in EXEMPT or request == ("dp", 4, "read") and self.bank0()
        if self.buffers and exempt and end == "ok" and self.pending and self.pending[0] == "write" and self.rng.random() < 0.5:
            self.pending, self.damaged = None, True
        self.asked = request
        port, address, direction = request
        posted = direction == "read" and (port == "ap" or address == 12 or self.bug == "readok_any")
        if posted and end is not None:
            kept = (self.bug, end) in (("readok_at_wait", "wait"), ("readok_at_fault", "fault"))
            self.readok = self.readok if kept else end == "ok"
        if end == "fault" and self.bug == "fault_executes" and request == ("ap", 12, "write") and self.memap():
            self.pending = ("write", 0)
        if end == "fault" and self.bug == "read_after_fault" and request == ("ap", 12, "read") and self.memap():
            self.owed = True
        if end == "ok" and request == ("dp", 0, "read"):
            self.reset = "live"
        if end == "ok" and port == "ap":
            self.ups[0] = "seen"
        return end

    def status(self, busy):
        for place in (0, 1):
            if self.ups[place] != "seen":
                self.ups[place] = self.rng.choice(["late", "seen"]) if busy else "seen"
        readok, damaged = self.readok or self.bug == "readok_always", self.damaged
        if self.bug == "status_swapped":
            readok, damaged = damaged, readok
        sticky = self.sticky and not (self.bug == "wdataerr_hides" and damaged)
        word = sticky << 5 | readok << 6 | damaged << 7
        for place in (0, 1):
            word |= self.powers[place] << 28 + 2 * place
            word |= (self.powers[place] and self.ups[place] == "seen") << 29 + 2 * place
        if self.bug == "status_bit_31":
            word = word & 0x7FFFFFFF | (word >> 28 & 1) << 31
        other = self.kept & 0x00FFFF0D if self.bug == "status_keeps_word" else self.word() & 0x0FFFFF1F
        return word | other

    def read(self, request, busy):
        """The word of a read that was answered OK."""
        port, address, _ = request
        if port == "dp" and address == 0:
            self.buffer = None if self.bug == "dpidr_empties" else self.buffer
            return self.ident ^ (self.bug == "dpidr_even") ^ (self.bug == "dpidr_changes" and self.resets > 2) * 0x10
        if port == "dp" and address == 4:
            return self.status(busy) if self.bank0() else self.word()
        if port == "dp" and address == 8:
            self.readok = self.readok or self.bug == "resend_sets_readok"
            if self.bug == "resend_zero":
                return 0
            kept = self.buffer if self.bug == "resend_buffer" else self.last
            if self.bug == "resend_moves_tar" and self.single and self.tar is not None:
                self.tar = self.next_address()
            self.last = 0 if self.bug == "resend_once" else self.last
            return self.word() if kept is None else kept
        word = self.word() if self.buffer is None else self.buffer
        if self.bug == "rdbuff_last" and port == "dp" and self.last is not None:
            word = self.last
        held, skips = self.buffer, self.bug == "resend_skips_rdbuff" and port == "dp"
        self.last = self.last if skips else self.buffer
        if not (self.bug == "buffer_kept_in_bank" and port == "ap" and not self.memap()):
            self.buffer = None
        if port == "dp":
            if self.bug == "rdbuff_transfers" and self.reads_again:
                self.pending = ("read",)
            self.reads_again = False
            return 0 if self.bug == "rdbuff_zero" else word
        if not self.memap() or address == 8:
            if self.rng.random() < 0.1:
                self.sticky = True
            elif self.bug == "ap8_is_csw" and self.memap():
                self.buffer = self.csw()
            elif self.bug != "buffer_kept_in_bank":
                self.buffer = self.word()
        elif address == 0:
            self.buffer = self.csw()
        elif address == 4:
            self.buffer = self.tar
        else:
            self.pending, self.reads_again = ("read",), True
        if self.bug == "not_posted" and self.pending is not None:
            self.complete()
        if self.bug == "not_posted" and self.buffer is not None:
            return self.buffer
        return word if held is not None else self.word()

    def csw(self):
        """What CSW reads."""
        csw = (0 if self.bug == "csw_byte" else 2) | (0 if self.bug == "csw_disabled" else 0x40)
        other = self.word() & (0x00FFFF08 if self.bug == "csw_upper_zero" else 0xFFFFFF08)
        return csw | (self.single and self.bug != "csw_off") << 4 | other | (self.bug == "csw_in_progress") << 7

    def write(self, request, word, sent=0):
        """The data of a write arrives, or arrives damaged: None, and what was sent."""
        port, address, _ = request
        if word is None and self.bug == "damaged_drw_made" and (port, address) == ("ap", 12) and self.memap():
            self.damaged, self.buffer, self.last, self.pending = True, None, None, ("write", sent)
            return
        if word is None and self.bug not in ("damage_done", "damage_done_flagged"):
            is_ignored = self.bug == "abort_damage_ignored" and (port, address) == ("dp", 0)
            if self.bug != "damage_ignored" and not is_ignored:
                self.damaged = True
            return
        self.damaged = self.damaged or word is None and self.bug == "damage_done_flagged"
        word = sent if word is None else word
        if port == "dp":
            self.write_debug_port(address, word)
            return
        self.buffer, self.last = None, None
        if not self.memap() or address == 8:
            if self.memap() and self.bug == "ap8_is_tar":
                self.tar = word
            elif self.rng.random() < 0.1:
                self.sticky = True
        elif address == 0:
            self.single = word >> 4 & 3 == 1
            self.kept = word if self.bug == "tar_packed" else self.kept
            self.tar = 0 if self.bug == "csw_clears_tar" else self.tar
        elif address == 4:
            word &= {"tar_low_bits": 0xFFFFFFFC, "tar_16_bits": 0xFFFF}.get(self.bug, 0xFFFFFFFF)
            self.tar, self.tar_next = (self.tar, word) if self.bug == "tar_late" else (word, None)
        else:
            self.pending = ("write", word)

    def write_debug_port(self, address, word):
        if address == 0:
            if word & 4 and self.bug != "stkerrclr_nothing" or word & 8 and self.bug == "wderrclr_all":
                self.sticky = False
            waits = self.bug == "wderrclr_waits" and self.sticky
            if word & 8 and self.bug != "wderrclr_nothing" and not waits or word & 4 and self.bug == "stkerrclr_all":
                self.damaged = False
            if word & 1 and self.bug == "dapabort_clears":
                self.sticky = self.damaged = False
            if self.bug == "clear_forgets_resend":
                self.last = 0
            if self.owed and not (self.sticky or self.damaged):
                self.pending, self.owed = ("read",), False
        elif address == 4 and self.bank0():
            shift = 1 if self.bug == "power_by_ack" else 0
            self.powers = [bool(word >> 28 + shift & 1), bool(word >> 30 + shift & 1)]
            self.ups, self.kept = ["unseen", "unseen"], word
        elif address == 8 or address == 12 and self.bug == "dp_c_selects":
            self.select = word & 0xFF0000FF

    def line_reset(self):
        self.resets += 1
        self.asked = None
        self.reset = self.reset if self.bug == "reset_keeps_live" else "fresh"
        self.damaged = self.damaged or (self.awaits and self.bug != "reset_no_damage")
        self.awaits = False
        if self.bug == "reset_clears_flags":
            self.sticky = self.damaged = False
        if self.bug == "reset_clears_power":
            self.powers = [False, False]
        if self.bug == "reset_clears_tar":
            self.tar = 0
        if self.bug == "reset_clears_csw":
            self.single = False
        if self.bug == "reset_clears_select":
            self.select = 0
        if self.bug == "reset_drops_transfer":
            self.pending = None
        if self.bug == "reset_clears_readok":
            self.readok = False


class Host:
    """Sends requests over a wire that is clean or isn't, and keeps the items."""

    def __init__(self, rng, target, noise, waits):
        self.rng, self.target, self.noise, self.waits, self.items = rng, target, noise, waits, []
        self.ended = False

    def reset(self):
        self.target.line_reset()
        self.items += [("reset", 100), ("idle", 2)]

    def lose(self, request, end, seen):
        """The acknowledgement is seen as none."""
        port, address, direction = request
        self.items.append(("tx", port, address, direction, "none", seen))
        if end == "ok":
            if direction == "read":
                self.target.read(request, False)
                self.target.awaits = False
            else:
                self.target.awaits = True
        if self.rng.random() < 0.05:
            self.items += [("junk", 0)] * self.rng.choice([1, 34, 35])
        self.reset()

    def ask(self, port, address, direction, word=0, bad=False):
        """Sends a request, and returns its word, or nothing where there is none."""
        rng, target, request = self.rng, self.target, (port, address, direction)
        deaf, mute, hurt = (rng.random() < self.noise for _ in range(3))
        if deaf:
            self.lose(request, None, rng.choice([7, 7, 0, 3, 5, 6]))
            return None
        busy = not mute and not hurt and rng.random() < self.waits
        end = target.ask(request, busy)
        if end is None or mute:
            self.lose(request, end, 7 if end is None else rng.choice([7, 0, 3, 5, 6]))
            return None
        if end != "ok":
            self.items.append(("tx", port, address, direction, end, 0))
            return None
        place = rng.randrange(33)
        target.awaits = False
        if direction == "read":
            word = target.read(request, busy)
            word ^= (1 << place) & 0xFFFFFFFF if hurt else 0
            bad = hurt or (target.bug == "parity_high" and bin(word).count("1") % 2 == 0)
        else:
            target.write(request, word if bad == hurt else None, word)
            if bad and hurt and place < 32:
                word ^= 1 << place
        self.items.append(("tx", port, address, direction, "bad" if bad else "ok", word))
        if rng.random() < 0.3:
            self.items.append(("idle", rng.choice([1, 8])))
        return None if bad else word

    def power_up(self):
        self.ask("dp", 0, "read")
        self.ask("dp", 0, "write", 0x1E)
        self.ask("dp", 4, "write", 0x50000000)
        self.ask("dp", 4, "read")
        self.ask("dp", 8, "write", 0)
        self.ask("ap", 0, "write", 0x23000012)
        self.ask("ap", 4, "write", BASE + self.rng.choice([0, 0x3F8, 0xF0, 0x3FC]))

    def anything(self):
        rng = self.rng
        port, address = rng.choice(["dp", "ap", "ap"]), rng.choice([0, 4, 8, 12, 12])
        direction = rng.choice(["read", "write"])
        if rng.random() < 0.15:
            port, address, direction = rng.choice([("dp", 12, "read"), ("dp", 4, "read"), ("dp", 8, "read")])
        word = rng.getrandbits(32)
        if (port, address) == ("dp", 0):
            word = rng.choice([0x1E, 4, 8, 0xC, 1, 0])
        elif (port, address) == ("dp", 4):
            word = rng.choice([0x50000000] * 6 + [0x10000000, 0x40000000, 0, 0x20000000])
        elif (port, address) == ("dp", 8):
            word = rng.choice([0] * 6 + [1, 0xF0, 0x01000000])
        elif (port, address) == ("ap", 0):
            word = rng.choice([0x12, 0x12, 0x12, 2, 0x22, 0x32])
        elif (port, address) == ("ap", 4):
            word = rng.choice([BASE + 4 * rng.randrange(1024), BASE + 0x3F8, BASE + 0xF8, BASE + 1, 0x10000000])
        self.ask(port, address, direction, word, rng.random() < 0.03)

    def careful(self):
        """One action of a debugger."""
        rng, act = self.rng, self.rng.randrange(8)
        if act < 2:
            for _ in range(rng.randrange(1, 4)):
                self.ask("ap", 12, "write", rng.getrandbits(32))
            self.ask("dp", 12, "read")
        elif act < 4:
            for _ in range(rng.randrange(1, 4)):
                self.ask("ap", 12, "read")
            self.ask("dp", 12, "read")
            if rng.random() < 0.5:
                self.ask("dp", 8, "read")
        elif act < 6:
            self.ask("ap", rng.choice([0, 4, 4]), "read")
            self.ask("dp", 12, "read")
            self.ask("dp", 8, "read")
        elif act == 6:
            self.ask("ap", 4, "write", BASE + rng.choice([0, 0xF8, 0x3F8, 0x404, 0x5001000]))
        else:
            self.ask("dp", 4, "read")
            self.ask("dp", 0, "write", 0x1E)


def session(rng, bug, clean, requests):
    """The items of a session with a target that was just made."""
    host = Host(rng, Target(rng, bug), 0 if clean else rng.choice([0.01, 0.05]), rng.choice([0, 0.1]))
    wild = rng.choice([0.1, 0.3, 0.9])
    if rng.random() < 0.2:
        host.ask("dp", 0, "read")
    host.reset()
    if rng.random() < 0.2:
        host.ask("dp", 4, "read")
    host.power_up()
    while len(host.items) < requests:
        if rng.random() < 0.02:
            host.reset()
        if host.target.reset != "live" or rng.random() < 0.02:
            host.power_up()
        if rng.random() < wild:
            host.anything()
        else:
            host.careful()
        if host.target.sticky or host.target.damaged:
            if rng.random() < 0.4:
                host.ask("dp", 4, "read")
                host.ask("dp", 0, "write", rng.choice([0x1E, 0x1E, 4, 8]))
    return merged(host.items)


def merged(items):
    """The items with idle cycles and line resets that follow each other as one."""
    out = []
    for item in items:
        if out and item[0] in ("idle", "reset") and out[-1][0] == item[0]:
            out[-1] = (item[0], out[-1][1] + item[1])
        else:
            out.append(item)
    return out
