"""types_of.py VMLINUZ TYPES: takes what a kernel says of its types out of its image."""
import struct
import subprocess
import sys
from pathlib import Path

sys.dont_write_bytecode = True
sys.path.insert(0, str(Path(__file__).resolve().parents[2] / "examples" / "c-policies"))
from kernel.elf import Elf  # noqa: E402

PACKED = {b"\x28\xb5\x2f\xfd": "zstd", b"\xfd7zXZ\0": "xz", b"\x1f\x8b": "gzip"}


def unpacked(image):
    """The kernel itself. It ends with its length in four bytes, of which the tools complain."""
    start = ((image[0x1f1] or 4) + 1) * 512 + struct.unpack_from("<I", image, 0x248)[0]
    packed = image[start:start + struct.unpack_from("<I", image, 0x24c)[0]]
    tool = next((tool for begins, tool in PACKED.items() if packed.startswith(begins)), None)
    if image[0x202:0x206] != b"HdrS" or tool is None:
        sys.exit(f"{sys.argv[1]}: no image of a kernel that is packed by {', '.join(PACKED.values())}")
    return subprocess.run([tool, "-dcq"], input=packed, stdout=subprocess.PIPE, stderr=subprocess.DEVNULL).stdout


def main():
    section = Elf(unpacked(Path(sys.argv[1]).read_bytes())).named(".BTF")
    if section is None:
        sys.exit(f"{sys.argv[1]}: the kernel says nothing of its types")
    Path(sys.argv[2]).write_bytes(section.content)


main()
