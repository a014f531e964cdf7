"""Access control lists of POSIX. The program cannot see them: a write makes a new file, which has none, or the folder's default one, and
may be read by others."""
import errno, os
from typing import Optional

ACCESS, DEFAULT = "system.posix_acl_access", "system.posix_acl_default"
HAS_NONE = {errno.ENODATA, errno.ENOTSUP, errno.EOPNOTSUPP, errno.ENOENT, errno.ENOTDIR, errno.ELOOP}


def list_fault(path: str, name: str, said: str) -> Optional[str]:
    """`said` where a path has this list, or why nobody can say whether it has; None where it has none."""
    try:
        os.getxattr(path, name)
    except AttributeError:  # (of another system than Linux)
        return " may have an access control list, for which Python does not look on this system"
    except OSError as error:
        return None if error.errno in HAS_NONE else f" may have an access control list: {error.strerror}"
    return said


def file_list(path: str) -> Optional[str]:
    """That a file has an access control list, as it is said after its name; None where it has none."""
    return list_fault(path, ACCESS, " has an access control list")


def folder_list(folder: str) -> Optional[str]:
    """That new files of a folder have an access control list, as it is said after its name; None where they have none."""
    return list_fault(folder, DEFAULT, " has a default access control list, which each new file in it has")
