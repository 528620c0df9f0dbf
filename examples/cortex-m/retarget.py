"""Makes of rattle's LLVM module of swd_c for aarch64 one for a 32-bit Arm: numbers of 64 bits keep them, pointers get
32, and every field stays at its byte. Stops at anything that it doesn't know.

usage: retarget.py MODULE.ll TRIPLE [SWD_H] >OUT.ll

With SWD_H, the exports get the convention by which C calls what that header declares. Without it each function keeps
its own: a count has 64 bits.
"""
import re
import sys

LAYOUT = "e-m:e-p:32:32-Fi8-i64:64-v128:64:128-a:0:32-n32-S64"
WIDTHS = {"i1": 1, "i8": 1, "i16": 2, "i32": 4, "i64": 8}
# What a C type is in the module; a pointer is "ptr".
TYPES = {"bool": "i1", "uint8_t": "i8", "uint16_t": "i16", "uint32_t": "i32", "uint64_t": "i64", "void": "void"}
STRUCT = re.compile(r"\{ ([^{}\n]*\bptr\b[^{}\n]*) \}")


def stop(why):
    sys.exit("retarget.py: " + why)


def placed(fields):
    """The fields of a struct with pads, so that each stands where pointers of eight bytes have it; and the indices."""
    there, here, out, indices = 0, 0, [], []
    for kind in fields:
        if kind != "ptr" and kind not in WIDTHS:
            stop("a field of type " + kind)
        width = WIDTHS.get(kind, 8)
        there = -(-there // width) * width
        narrow = 4 if kind == "ptr" else width
        if -(-here // narrow) * narrow != there:
            out.append("[%d x i8]" % (there - here))
        indices.append(len(out))
        out.append(kind)
        there, here = there + width, there + narrow
    return out, indices


def move_fields(text):
    """Structs in registers, and the indices by which their fields are taken out."""
    if re.search(r"insertvalue|alloca \{|getelementptr[^\n]*\{|\{[^}\n]*\{", text):
        stop("a struct is used in a way that isn't known here")

    def take(found):
        return "extractvalue { %s } %s, %d" % (
            found[1], found[2], placed(found[1].split(", "))[1][int(found[3])])

    text = re.sub(r"extractvalue " + STRUCT.pattern + r" (%[\w.]+), (\d+)", take, text)
    return STRUCT.sub(lambda found: "{ %s }" % ", ".join(placed(found[1].split(", "))[0]), text)


def prototypes(header):
    """Each function of the header: what it gives, and the types of what it takes."""
    bare = re.sub(r"/\*.*?\*/|^#.*?$", "", header, flags=re.S | re.M)
    for gives, name, takes in re.findall(r"^([a-z][\w *]*?) ?(swd_\w+)\(([^)]*)\)(?: SWD_CHECKED)?;", bare, re.M):
        params = [] if takes == "void" else takes.split(",")
        yield name, gives.strip(), [re.sub(r"\w+$", "", it).strip() for it in params]


def type_of(kind):
    return "ptr" if kind.endswith("*") else TYPES.get(kind, "unknown here")


def narrowed(text, name, gives, takes):
    """An export by this processor's convention: a count has 32 bits, a small number that is given fills its register,
    and a struct is given through memory."""
    export = re.compile(r"^define ([^@\n]*) @%s\(([^\n]*)\) #0 \{\nstart:\n(.*?)^\}\n" % name, re.S | re.M)
    found = export.search(text)
    if not found:
        stop("the module has no " + name)
    result, params, body = found[1].strip(), found[2].split(", "), found[3]
    if gives.startswith("struct") and "sret" not in params[0]:
        # Two registers on aarch64. What is called fills the memory itself.
        inner = re.search(r'^  call void (@"[^"]*")\(ptr %r\d+, ([^\n]*)\)$', body, re.M)
        if not inner:
            stop(name + " gives a struct in a way that isn't known here")
        params.insert(0, "ptr noundef %out")
        result, body = "void", "  call void %s(ptr %%out, %s)\n  ret void\n" % (inner[1], inner[2])
    result = re.sub(r"^noundef (i8|i16)$", r"noundef zeroext \1", result)
    if result.split()[-1] != ("void" if gives.startswith("struct") else type_of(gives)):
        stop("%s gives %s, the header says %s" % (name, result, gives))
    # Before the parameters may come the memory for what is given.
    shift = len(params) - len(takes)
    lines = ""
    for index, kind in enumerate(takes):
        param = params[shift + index]
        if kind == "size_t":
            wide = param.split()[-1]
            params[shift + index] = "i32 noundef %s.n" % wide
            lines += "  %s = zext i32 %s.n to i64\n" % (wide, wide)
        elif param.split()[0] != type_of(kind):
            stop("%s takes %s, the header says %s" % (name, param, kind))
    whole = "define %s @%s(%s) #0 {\nstart:\n%s%s}\n" % (result, name, ", ".join(params), lines, body)
    return text[:found.start()] + whole + text[found.end():]


def with_exports(text, header):
    """The module with the exports of the header."""
    known = set()
    for name, gives, takes in prototypes(header):
        text = narrowed(text, name, gives, takes)
        known.add(name)
    exports = set(re.findall(r"^define (?!internal)[^@\n]* @\"?([^\"(]*)", text, re.M))
    if exports != known:
        stop("not both in module and header: " + " ".join(sorted(exports ^ known)))
    return text


def main():
    text, triple = open(sys.argv[1]).read(), sys.argv[2]
    # Nothing takes a pointer for a number or a number for a pointer, but for the address of something as a number.
    if re.search(r"= (ptrtoint|inttoptr|atomicrmw|cmpxchg|fence)\b|call [^@\n]* asm ", text):
        stop("the module does with pointers what isn't known here")
    text = re.sub(r'target datalayout = ".*"', 'target datalayout = "%s"' % LAYOUT, text)
    text = re.sub(r'target triple = ".*"', 'target triple = "%s"' % triple, text)
    text = re.sub(r' "(probe-stack|stack-probe-size|target-cpu|frame-pointer)"="[^"]*"', "", text)
    text = re.sub(r"(%[\w.]+) = ptrtoaddr ptr (%[\w.]+) to i64",
                  r"\1.a = ptrtoaddr ptr \2 to i32\n  \1 = zext i32 \1.a to i64", text)
    text = move_fields(text)
    if len(sys.argv) > 3:
        text = with_exports(text, open(sys.argv[3]).read())
    print(text, end="")


main()
