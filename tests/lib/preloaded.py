"""Small libraries that are loaded before the C library, so that a program's calls fail from outside it."""
import os
import shutil
import subprocess


def built(folder, source):
    """The library of this source, made with the clang of the toolchain. (It needs no headers, and no other library.)"""
    kit = os.path.dirname(os.path.dirname(os.path.realpath(shutil.which(os.environ.get("RT", "rt")) or "")))
    clang = os.path.join(kit, "toolchain", "bin")
    made = os.path.join(folder, os.path.basename(source).replace(".c", ".so"))
    subprocess.run([f"{clang}/clang", "-O1", "-fPIC", "-shared", "-nostdlib", "-fuse-ld=lld", f"-B{clang}", source,
                    "-o", made], check=True)
    return made
