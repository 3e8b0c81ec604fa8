"""pyxs against the daemon at XENSTORED_PATH: transactions with and without a conflict (commit is False where the reply is EAGAIN), and a monitor."""

import errno
import pyxs

# pyxs asks /proc/xen whether this is domain 0 before it sends RELEASE; here the daemon's main socket makes it so.
pyxs.Client.SU = True

with pyxs.Client() as one, pyxs.Client() as other:
    one.write(b"/bin/level", b"10")

    print("a transaction without a conflict")
    one.transaction()
    one.write(b"/bin/level", b"11")
    one.write(b"/bin/lid", b"shut")
    print(" inside: ", one.read(b"/bin/level"), " outside: ", other.read(b"/bin/level"))
    print(" commit: ", one.commit())
    print(" outside: ", other.read(b"/bin/level"), other.read(b"/bin/lid"))

    print("a transaction with a conflict")
    one.transaction()
    one.write(b"/bin/level", b"12")
    other.write(b"/bin/lid", b"open")
    print(" commit: ", one.commit())
    print(" outside: ", other.read(b"/bin/level"), other.read(b"/bin/lid"))

    print("tried again")
    one.transaction()
    one.write(b"/bin/level", b"12")
    print(" commit: ", one.commit())
    print(" outside: ", other.read(b"/bin/level"))

    print("given up")
    one.transaction()
    one.delete(b"/bin")
    one.rollback()
    print(" names: ", other.list(b"/bin"))

    print("two at once, the second one late")
    one.transaction()
    other.transaction()
    one.write(b"/bin/level", b"13")
    other.write(b"/bin/level", b"14")
    print(" commits: ", one.commit(), other.commit())
    print(" outside: ", other.read(b"/bin/level"))

    print("domains and entries")
    one.introduce_domain(5, 1, 2)
    print(" introduced: ", one.is_domain_introduced(5), one.is_domain_introduced(6), " path: ", one.get_domain_path(5))
    one.set_perms(b"/bin/lid", [b"n5", b"r7"])
    print(" entries: ", one.get_perms(b"/bin/lid"))
    one.release_domain(5)
    print(" after its release: ", one.exists(b"/bin/lid"), one.is_domain_introduced(5))

    print("refusals")
    for asked in [lambda: one.read(b"/none"), lambda: one.write(b"/bin/level", b"x" * 65)]:
        try:
            asked()
        except pyxs.PyXSError as error:
            print(" ", errno.errorcode[error.args[0]])

    print("a monitor")
    with other.monitor() as monitor:
        monitor.watch(b"/bin", b"token")
        events = monitor.wait()
        print(" first: ", tuple(next(events)))
        one.write(b"/bin/level", b"15")
        print(" then: ", tuple(next(events)))
