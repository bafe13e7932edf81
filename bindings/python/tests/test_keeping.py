"""What stays of a file that is written over, and which files aren't."""

import errno
import os
import stat

import pytest

from kit import spy
from kit.records import LEFT, LOOSE, OLD, TIDY, is_left, old_record, times
from kit.runner import run


@pytest.fixture
def record(tmp_path):
    return old_record(tmp_path)


def test_the_times_stay(record, capfd):
    assert run(capfd, "tidy", "--in-place", record).status == 0
    assert times(record) == OLD and record.read_bytes() == TIDY


def test_a_file_of_another_folder_has_times_of_its_own(record, tmp_path, capfd):
    (tmp_path / "to").mkdir()
    (tmp_path / "to" / "a.sgf").write_bytes(b"old")
    os.utime(tmp_path / "to" / "a.sgf", ns=OLD)
    assert run(capfd, "tidy", "--to", tmp_path / "to", record).status == 0
    assert times(tmp_path / "to" / "a.sgf")[1] > OLD[1]


def has_attributes(folder):
    try:
        os.setxattr(folder, "user.goref", b"")
        os.removexattr(folder, "user.goref")
        return True
    except OSError:
        return False


def test_extended_attributes_stay(record, tmp_path, monkeypatch, capfd):
    if not has_attributes(tmp_path):
        pytest.skip("the file system has no extended attributes")
    os.setxattr(record, "user.source", b"\x00kept")
    record.chmod(0o440)
    # Who isn't root can give them to a file only while that may be written.
    modes = []
    spy.before(monkeypatch, "setxattr", lambda: modes.extend(
        stat.S_IMODE(path.stat().st_mode) for path in tmp_path.glob(".goref-*.new")))
    assert run(capfd, "tidy", "--in-place", record).status == 0
    assert record.read_bytes() == TIDY and os.getxattr(record, "user.source") == b"\x00kept"
    assert stat.S_IMODE(os.stat(record).st_mode) == 0o440 and modes == [0o600]


# A list as the system keeps it: version 2, and entries of a tag, permissions and a number. The group may write, uid 1
# may read, and so nobody gets more by the mode.
ACL = b"\2\0\0\0" + b"".join(
    tag.to_bytes(2, "little") + may.to_bytes(2, "little") + who.to_bytes(4, "little")
    for tag, may, who in [(1, 6, 2**32 - 1), (2, 4, 1), (4, 6, 2**32 - 1), (16, 6, 2**32 - 1), (32, 0, 2**32 - 1)]
)


def test_access_control_lists_stay(record, tmp_path, capfd):
    """A folder gives new files a list, which a file from before may not have."""
    try:
        os.setxattr(tmp_path, "system.posix_acl_default", ACL)
    except OSError:
        pytest.skip("the file system has no access control lists")
    (tmp_path / "b.sgf").write_bytes(LOOSE)
    os.removexattr(record, "system.posix_acl_access") if os.listxattr(record) else None
    lists = [os.listxattr(tmp_path / name) for name in ("a.sgf", "b.sgf")]
    assert lists == [[], ["system.posix_acl_access"]]
    kept = os.getxattr(tmp_path / "b.sgf", "system.posix_acl_access")
    assert run(capfd, "tidy", "--in-place", tmp_path).status == 0
    assert [os.listxattr(tmp_path / name) for name in ("a.sgf", "b.sgf")] == lists
    assert os.getxattr(tmp_path / "b.sgf", "system.posix_acl_access") == kept


@pytest.mark.parametrize("number", [errno.EPERM, errno.EACCES, errno.ENOTSUP])
def test_a_file_whose_attributes_cant_be_kept_is_left(record, tmp_path, monkeypatch, capfd, number):
    monkeypatch.setattr(os, "listxattr", lambda file: ["user.source"] if file == str(record) else [])
    monkeypatch.setattr(os, "getxattr", lambda file, name: b"kept")
    spy.failing(monkeypatch, "setxattr", number)
    why = f"its extended attributes can't be kept: {os.strerror(number)}"
    assert is_left(record, run(capfd, "tidy", "--in-place", record), why)


def test_a_file_system_without_attributes_is_none_the_worse(record, monkeypatch, capfd):
    spy.failing(monkeypatch, "listxattr", errno.ENOTSUP)
    assert run(capfd, "tidy", "--in-place", record).status == 0 and record.read_bytes() == TIDY


def of_another_group(monkeypatch, record):
    """Has a file be of another group than new files are."""
    fstat = os.fstat

    def other(number):
        status = fstat(number)
        if os.readlink(f"/proc/self/fd/{number}") == str(record):
            return status
        changed = [*status[:5], status.st_gid + 1, *status[6:]]
        return os.stat_result(changed, {"st_mtime_ns": status.st_mtime_ns, "st_atime_ns": status.st_atime_ns})

    monkeypatch.setattr(os, "fstat", other)


def test_the_owner_and_the_group_stay(record, monkeypatch, capfd):
    of_another_group(monkeypatch, record)
    given = []
    monkeypatch.setattr(os, "fchown", lambda number, *whose: given.append(whose))
    assert run(capfd, "tidy", "--in-place", record).status == 0
    status = os.stat(record)
    assert given == [(status.st_uid, status.st_gid)] and record.read_bytes() == TIDY


def test_a_file_whose_group_cant_be_kept_is_left(record, monkeypatch, capfd):
    of_another_group(monkeypatch, record)
    spy.failing(monkeypatch, "fchown")
    why = "its owner and group can't be kept: Operation not permitted"
    assert is_left(record, run(capfd, "tidy", "--in-place", record), why)


def test_a_file_of_another_owner_is_left(record, monkeypatch, capfd):
    owner = os.geteuid()
    monkeypatch.setattr(os, "geteuid", lambda: owner + 1)
    for words in ([], ["--dry-run"]):
        end = run(capfd, "tidy", "--in-place", *words, record)
        assert end.told[0] == f"{record}: it is another user's (uid {owner}), and would become yours"
        assert end.status == 1 and record.read_bytes() == LOOSE


def test_a_file_with_hard_links_is_left(record, tmp_path, capfd):
    os.link(record, tmp_path / "other")
    end = run(capfd, "tidy", "--in-place", record)
    told = "it has 2 hard links, and the others would keep the old text: say --break-links"
    assert (end.status, end.told) == (1, [f"{record}: {told}", LEFT])
    assert os.path.samefile(record, tmp_path / "other") and record.read_bytes() == LOOSE
    end = run(capfd, "tidy", "--in-place", "--break-links", record)
    assert end.status == 0 and record.read_bytes() == TIDY and (tmp_path / "other").read_bytes() == LOOSE


def test_a_file_with_hard_links_that_is_tidy_is_as_it_was(tmp_path, capfd):
    (tmp_path / "a.sgf").write_bytes(TIDY)
    os.link(tmp_path / "a.sgf", tmp_path / "b.sgf")
    end = run(capfd, "tidy", "--in-place", tmp_path)
    assert (end.status, end.err) == (0, "0 written, 2 as they were, 0 refused, 0 left, 0 failed\n")
