"""A program over the package whose types `mypy --strict` checks, as those of the package itself (`checks/bindings`)."""
from typing import Dict, List

import swd
import swd.flash


class Probe:
    def drive(self, bits: int, count: int) -> None:
        print(bits, count)

    def release(self, count: int) -> None:
        print(count)

    def sample(self, count: int) -> int:
        return (1 << count) - 1


class Wire:
    def drive(self, bit: int) -> None:
        print(bit)

    def release(self) -> None:
        print()

    def sample(self) -> int:
        return 1


class Way:
    def exchange(self, packet: bytes, size: int) -> bytes:
        return packet[:size]

    def close(self) -> None:
        print()


class Ram:
    def __init__(self) -> None:
        self.words = {0x20000000: 0}

    def read(self, addr: int) -> int:
        return self.words[addr]

    def write(self, addr: int, word: int) -> None:
        self.words[addr] = word


def told(index: int, answer: swd.Answer) -> None:
    print(index, answer)


def use() -> List[int]:
    with swd.Session(swd.Sequences(Probe()), tries=8, bursts=True) as session:
        identification: swd.Identification = session.identify()
        print(identification.word, identification)
        opening: swd.Opening = session.opening
        powers: List[bool] = [opening.has_debug_power, opening.has_system_power]
        print(opening.ctrl_stat, powers)
        session.write(0x20000000, 1)
        word: int = session.read(0x20000000)
        found: int = session.until(0x20000000, 1, 1, reads=10, interval=0.1)
        session.load(0x20000000, b"abc", on_progress=lambda done, total: print(done, total))
        data: bytes = session.dump(0x20000000, 3)
        print(word, found, data)
        core = swd.Core(session, reads=100, interval=0.1)
        with core.halted():
            core.write("r0", core.read("r1"))
            registers: Dict[str, int] = core.registers("pc")
        state: swd.CoreState = core.state
        print(registers, state, core.identify().name, core.wait(10))
        algorithm: swd.flash.Algorithm = swd.flash.Algorithm.read("a.FLM")
        swd.flash.Programmer(session, algorithm, ram=(0x20000000, 0x1000)).program(swd.flash.read_image("a.hex"))
    with swd.Probe("/dev/hidraw0", speed=4_000_000) as probe, swd.Session(probe) as over_probe:
        print(probe.size, over_probe.read(0x20000000))
    swd.Host(swd.Probe.over(Way())).run_block(0x20000000, 4)
    host = swd.Host(Wire())
    accesses: List[swd.Access] = [swd.Read(0x20000000), swd.Write(0x20000000, 7)]
    try:
        report = host.run(accesses, on_answer=told)
    except swd.RunFailed as failure:
        report = host.resume(accesses, failure.report, check=False)
    except swd.Interrupted as stop:
        report = stop.report
    run = swd.Run(accesses)
    plan: List[int] = [planned.request for planned in run.plan()]
    print(plan)
    cue = run.cue()
    if cue is not None:
        for step in cue.sequences():
            if isinstance(step, swd.Drive):
                print(step.bits, step.count)
        run.next(0)
    for item in swd.decode("000"):
        if isinstance(item, swd.Transaction):
            print(item)
    checker = swd.Checker("made", clean=True)
    checker.feed([swd.Reset(50)])
    verdict: swd.Verdict = checker.verdict
    print(verdict.kind, verdict.place, verdict.rule, verdict.began, verdict.faults, verdict.gaps)
    target = swd.Target(Ram())
    swd.Host(target).run(accesses)
    swd.Host((lambda bit: None, lambda: 1)).run_block(0x20000000, 4)
    return report.words()
