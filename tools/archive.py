"""What an archive target/library/PROCESSOR/liboffers.a says of itself, read by the kit's own tools, which know every
processor."""
import pathlib
import re
import subprocess

ROOT = pathlib.Path(__file__).resolve().parent.parent
PROCESSORS = ("x86_64", "aarch64")
HEAP = {"malloc", "calloc", "realloc", "free", "aligned_alloc", "posix_memalign", "mmap", "brk", "sbrk"}
SYSTEM_CALLS = {"x86_64": {"syscall", "sysenter", "int"}, "aarch64": {"svc", "hvc", "smc"}}
# all that a program with no C library has to bring
ALONE = """typedef __SIZE_TYPE__ size_t;
void *memset(void *at, int byte, size_t count) {
    for (volatile char *to = at; count > 0; count--) *to++ = (char)byte;
    return at;
}
"""


def ran(*words, in_folder=ROOT, **more):
    words = [str(word) for word in words]
    return subprocess.run(words, cwd=in_folder, stdout=subprocess.PIPE, stderr=subprocess.STDOUT, text=True, **more)


def said(*words, **more):
    return ran(*words, check=True, **more).stdout


def header_calls():
    return set(re.findall(r"^offers_\w+ (offers_\w+)\(", (ROOT / "include" / "offers.h").read_text(), re.M))


class Archive:
    def __init__(self, processor):
        self.processor = processor
        self.path = self.path_in(ROOT)
        self.made = ROOT / "target" / "facts" / processor
        self.made.mkdir(parents=True, exist_ok=True)
        self.clang = pathlib.Path(said("tools/toolchain").strip()) / "bin" / "clang"

    def path_in(self, root):
        return pathlib.Path(root) / "target" / "library" / self.processor / "liboffers.a"

    def names(self, which):
        listed = said("tools/llvm", "nm", "--quiet", "--format=just-symbols", which, self.path)
        return {line for line in listed.split() if not line.endswith(".o:")}

    def undefined(self):
        return self.names("--undefined-only")

    def exported(self):
        return self.names("--extern-only") - self.undefined()

    def sizes(self):
        """Text, data and bss."""
        return [int(word) for word in said("tools/llvm", "size", self.path).splitlines()[1].split()[:3]]

    def is_of_its_processor(self):
        machine = {"x86_64": "X86-64", "aarch64": "AArch64"}[self.processor]
        return machine in said("tools/llvm", "readelf", "--file-header", self.path)

    def system_calls(self):
        code = said("tools/llvm", "objdump", "-d", "--no-show-raw-insn", self.path)
        return SYSTEM_CALLS[self.processor] & set(re.findall(r"^ +[0-9a-f]+:\s+(\w+)", code, re.M))

    def stack_is_executable(self):
        sections = said("tools/llvm", "readelf", "-SW", self.path)
        note = re.search(r"\.note\.GNU-stack +PROGBITS( +[0-9a-f]+){4} +(?P<flags>[A-Z]*) ", sections)
        return note is None or "X" in note["flags"]

    def link(self, *words):
        return ran(self.clang.with_name("ld.lld"), *words, "-o", self.made / "linked").returncode == 0

    def is_position_independent(self):
        """It can be linked into a shared library with no place in its code left to be mended when that is loaded."""
        return self.link("-shared", "-z", "text", "--whole-archive", self.path)

    def links_alone(self):
        """All of it links into a program with no C library, but for a memset of its own."""
        memset = self.made / "memset.o"
        words = ["-ffreestanding", "-fno-builtin", "-O1", "-x", "c", "-c", "-", "-o", memset]
        said(self.clang, f"--target={self.processor}-unknown-linux-gnu", *words, input=ALONE)
        return self.link("-static", "-e", "offers_total", "--whole-archive", self.path, memset)
