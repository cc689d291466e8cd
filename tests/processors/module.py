"""The module that the kit makes of firmware, and modules that look otherwise."""
import shutil
import subprocess

from place import BIN, HOST, PATIENCE, ROOT

# Modules that look otherwise: what is changed, at its last place, into what, and a word of the line that refuses it.
# Each is a module that clang itself takes.
FIRST = "start:\n"
DECLARED = "declare void @llvm.memmove"
PROCESSOR = '"target-cpu"="x86-64-v2"'
FOR_HOST = '"probe-stack"="inline-asm" "stack-probe-size"="3072" ' + PROCESSOR
TAKEN = "  store ptr %r4, ptr %r0, align 8\n"
CALLED = '(i8 %a0, i8 %a1, i16 %a2, ptr %r6, i64 %r8, ptr %r15, i64 %r17)'
COPY = "  call void @llvm.memmove.p0.p0.i64(ptr %r0, ptr %a3, "
FILL = "  call void @llvm.memset.p0.i64(ptr "
WRITES = '  call void @"frame::writer::write"(ptr %r9, '
INNER = "  %r26 = load ptr, ptr %r3, align 8, !noundef !1\n"
WIDTH = "  %r3 = icmp eq i8 %a0, -1\n"
ANY = '  call void @"frame::writer::write_any::<'
OTHERWISE = [
    ("another processor", PROCESSOR, '"target-cpu"="x86-64-v3"', "attributes"),
    ("a feature of the processor", PROCESSOR, PROCESSOR + ' "target-features"="+avx2"', "attributes"),
    ("no processor", PROCESSOR, "", "attributes"),
    ("no probes of the stack", '"probe-stack"="inline-asm" ', "", "attributes"),
    ("a frame that is aligned", "{ nounwind \"probe", "{ nounwind alignstack=64 \"probe", "attributes"),
    ("an address as a number", TAKEN, TAKEN + "  %z = ptrtoint ptr %a3 to i64\n", "form"),
    ("a number as an address", FIRST, FIRST + "  %z = inttoptr i64 16 to ptr\n", "form"),
    ("addresses compared", TAKEN, TAKEN + "  %z = icmp ult ptr %a3, %a5\n", "form"),
    ("a place by the layout", TAKEN, TAKEN + "  %z = getelementptr { ptr, i64 }, ptr %r0, i64 0, i32 1\n", "form"),
    ("a place counted in addresses", TAKEN, TAKEN + "  %z = getelementptr ptr, ptr %r0, i64 1\n", "form"),
    ("memory for an address and more", FIRST, FIRST + "  %z = alloca { ptr, i64 }, align 8\n", "form"),
    ("memory of a size that is computed", TAKEN, TAKEN + "  %z = alloca i8, i64 %a4, align 1\n", "form"),
    ("a number where an address was", FIRST, FIRST + "  %z = alloca ptr, align 8\n  store i64 0, ptr %z, align 8\n",
     "for more"),
    ("an address read as a number", TAKEN, TAKEN + "  %z = alloca ptr, align 8\n  store ptr %a3, ptr %z, align 8\n"
     "  %y = load i64, ptr %z, align 8\n", "for more"),
    ("16 bytes where an address was", TAKEN, TAKEN + "  %z = alloca ptr, align 8\n"
     "  call void @llvm.memmove.p0.p0.i64(ptr %z, ptr %r0, i64 16, i1 false)\n", "for more"),
    ("a place in an address", FIRST, FIRST + "  %z = alloca ptr, align 8\n  %y = getelementptr i8, ptr %z, i64 4\n",
     "for more"),
    ("the address of an address", FIRST, FIRST + "  %z = alloca ptr, align 8\n  store ptr %z, ptr %z, align 8\n",
     "for more"),
    ("an address of a slice as a number", TAKEN, TAKEN + "  %z = load i64, ptr %r0, align 8\n", "address as a number"),
    ("a number in the place of an address", TAKEN, TAKEN + "  %y = getelementptr i8, ptr %r0, i64 4\n"
     "  store i32 1, ptr %y, align 4\n", "an address as a number"),
    ("a place beyond memory", TAKEN, TAKEN + "  %y = getelementptr i8, ptr %r0, i64 9\n"
     "  store i64 1, ptr %y, align 1\n", "beyond"),
    ("a place that is not aligned", TAKEN, TAKEN + "  %y = getelementptr i8, ptr %r0, i64 9\n"
     "  store i16 1, ptr %y, align 2\n", "not aligned"),
    ("memory that is aligned to 16", FIRST, FIRST + "  %z = alloca [16 x i8], align 16\n", "aligns"),
    ("a computed place in memory", TAKEN, TAKEN + "  %y = getelementptr inbounds nuw i8, ptr %r0, i64 %a4\n",
     "computes"),
    ("more than a byte of the payload", TAKEN, TAKEN + "  %z = load i64, ptr %a3, align 1\n", "more than a byte"),
    ("an output that is aligned", TAKEN, TAKEN + "  store i8 0, ptr %a5, align 16\n", "more than a byte"),
    ("a place before", TAKEN, TAKEN + "  %z = getelementptr i8, ptr %a3, i64 -1\n", "form"),
    ("a place above 32 bits", TAKEN, TAKEN + "  %z = getelementptr i8, ptr %a3, i64 4294967304\n", "form"),
    ("memory above 32 bits", FIRST, FIRST + "  %z = alloca [4294967312 x i8], align 8\n", "form"),
    ("a copy above 32 bits", TAKEN, TAKEN + COPY + "i64 4294967312, i1 false)\n", "form"),
    ("a copy beyond memory", TAKEN, TAKEN + COPY + "i64 17, i1 false)\n", "beyond"),
    ("a copy of a computed size", TAKEN, TAKEN + COPY + "i64 %a4, i1 false)\n", "form"),
    ("a copy that is volatile", TAKEN, TAKEN + COPY + "i64 16, i1 true)\n", "form"),
    ("a shift by all bits", TAKEN, TAKEN + "  %z = shl i64 %a4, 64\n", "form"),
    ("a division by 0", TAKEN, TAKEN + "  %z = udiv i64 %a4, 0\n", "form"),
    ("a call with fewer arguments", CALLED, "(i8 %a0, i8 %a1, i16 %a2, ptr %r0)", "other types"),
    ("a call with a wider argument", CALLED, CALLED.replace("i8 %a0", "i64 %a4"), "other types"),
    ("a function that calls itself", '@"firmware::trogonreed_write_frame"' + CALLED,
     "@trogonreed_write_frame(i8 %a0, i8 %a1, i16 %a2, ptr %a3, i64 %a4, ptr %a5, i64 %a6)", "for C alone"),
    ("another promise to clang", '{ nounwind "probe', '{ nounwind willreturn "probe', "attributes"),
    ("numbers of 128 bits", FIRST, FIRST + "  %z = alloca i128, align 16\n", "form"),
    ("numbers with a point", FIRST, FIRST + "  %z = fadd double 1.0, 2.0\n", "form"),
    ("vectors", FIRST, FIRST + "  %z = alloca <4 x i32>, align 16\n", "form"),
    ("memory that is shared", TAKEN, TAKEN + "  %z = load atomic i8, ptr %a3 seq_cst, align 1\n", "form"),
    ("assembly", FIRST, FIRST + '  call void asm sideeffect "nop", ""()\n', "form"),
    ("assembly of the module", DECLARED, 'module asm "nop"\n' + DECLARED, "form"),
    ("a variable", DECLARED, "@kept = global i32 0\n" + DECLARED, "form"),
    ("an outer function", DECLARED, "declare void @puts(ptr)\n" + DECLARED, "needs"),
    ("an outer function of clang", DECLARED, "declare void @llvm.trap()\n" + DECLARED, "needs"),
    ("a second export", 'internal noundef i64 @"frame::writer::width"', 'noundef i64 @"frame::writer::width"',
     "exports"),
    ("another name", " @trogonreed_write_frame(", " @trogonreed_writes(", "exports"),
    ("no export", "define noundef i32 @trogonreed", "define internal noundef i32 @trogonreed", "export"),
    ("lengths of 32 bits", None, None, "exports"),
    ("an inner function that calls itself", WIDTH, WIDTH + '  %z = call i64 @"frame::writer::width"(i8 %a0)\n',
     "may call itself"),
    ("two functions that call each other", ANY, '  %z = call i32 @"firmware::trogonreed_write_frame"'
     "(i8 1, i8 2, i16 3, ptr %a2, i64 %a3, ptr %a4, i64 %a5)\n" + ANY, "may call itself"),
    ("addresses compared in C's function", TAKEN, TAKEN + "  %z = icmp eq ptr %a3, %a5\n", "form"),
    ("an address compared in another function", INNER, INNER + "  %z = icmp eq ptr %a2, null\n", "form"),
    ("zeros where an address was", FIRST, FIRST + "  %z = alloca ptr, align 8\n"
     f"{FILL}%z, i8 0, i64 8, i1 false)\n", "for more"),
    ("zeros beyond memory", TAKEN, TAKEN + FILL + "%r0, i8 0, i64 17, i1 false)\n", "beyond"),
    ("zeros above 32 bits", TAKEN, TAKEN + FILL + "%r0, i8 0, i64 4294967312, i1 false)\n", "form"),
    ("zeros of a computed size", TAKEN, TAKEN + FILL + "%a3, i8 0, i64 %a4, i1 false)\n", "form"),
    ("zeros that are volatile", TAKEN, TAKEN + FILL + "%r0, i8 0, i64 16, i1 true)\n", "form"),
    ("another number than zeros", TAKEN, TAKEN + FILL + "%r0, i8 7, i64 16, i1 false)\n", "form"),
    ("a pair stored whole", TAKEN, TAKEN + "  store { ptr, i64 } zeroinitializer, ptr %r0, align 8\n", "form"),
    ("a pair of 128 bits", TAKEN, TAKEN + "  %z = load { i128, ptr }, ptr %r0, align 8\n", "form"),
    ("a pair in a pair", TAKEN, TAKEN + "  %z = load { { ptr, i32 }, i32 }, ptr %r0, align 8\n", "form"),
    ("a pair without room between its parts", TAKEN, TAKEN + "  %z = load <{ ptr, i64 }>, ptr %r0, align 8\n", "form"),
    ("a pair with an address as a number", TAKEN, TAKEN + "  %z = load { i64, i64 }, ptr %r0, align 8\n",
     "address as a number"),
    ("a pair with a number as an address", TAKEN, TAKEN + "  %z = load { i32, ptr }, ptr %r0, align 8\n"
     "  %y = getelementptr i8, ptr %r0, i64 8\n  store i64 %a4, ptr %y, align 8\n", "an address as a number"),
    ("a pair beyond memory", TAKEN, TAKEN + "  %y = getelementptr i8, ptr %r0, i64 8\n"
     "  %z = load { i64, i8 }, ptr %y, align 8\n", "beyond"),
    ("a pair in the memory of an address", FIRST, FIRST + "  %z = alloca ptr, align 8\n"
     "  %y = load { ptr, i64 }, ptr %z, align 8\n", "for more"),
    ("a pair of the caller's", TAKEN, TAKEN + "  %z = load { i64, i8 }, ptr %a3, align 1\n", "more than a byte"),
    ("a function that writes numbers where its caller has an address", WRITES, WRITES.replace("%r9", "%r11"),
     "a number as an address"),
    ("a function that writes beyond its caller's memory", WRITES, WRITES.replace("%r9", "%r8"), "beyond"),
    ("a function that takes it that its caller's memory is aligned", "  store i64 %r20, ptr %a0, align 1\n",
     "  store i64 %r20, ptr %a0, align 16\n", "not aligned"),
    ("a function that writes more than bytes to C's memory", WRITES, WRITES.replace("%r9", "%r19"), "not known"),
    ("a copy of what C passes", TAKEN, TAKEN + COPY + "i64 16, i1 false)\n", "not its own"),
]


def module_of(place, tools):
    """The module that the kit makes of firmware: a clang that keeps what it is to compile."""
    kept = place.folder / "kept"
    real = tools.parents[1]
    for folder, left_out in [(real, ["bin", "toolchain"]), (real / "bin", ["rt", "rtlib.py"]),
                             (real / "toolchain", ["bin"]), (tools, ["clang"])]:
        target = kept / "kit" / folder.relative_to(real)
        target.mkdir(parents=True)
        for path in folder.iterdir():
            if path.name not in left_out:
                (target / path.name).symlink_to(path)
    for name in ["rt", "rtlib.py"]:  # rt finds its kit by the real path of its own file
        shutil.copy(real / "bin" / name, kept / "kit/bin")
    clang = kept / "kit" / BIN / "clang"
    clang.write_text(f"#!/bin/sh\nfor word; do case $word in *.bc) cp \"$word\" '{kept}/module.bc' ;; esac; done\n"
                     f"exec '{tools}/clang' \"$@\"\n", encoding="utf-8")
    clang.chmod(0o755)
    subprocess.run([kept / "kit/bin/rt", "lib", "--backend", "llvm"], cwd=ROOT / "crates/firmware", check=True,
                   capture_output=True, timeout=PATIENCE)
    module = (kept / "module.bc").read_bytes()
    shutil.rmtree(kept)
    return module


def translated(tools, module, *words, target=HOST):
    """A module in another form, or for another target, as clang makes it."""
    command = [tools / "clang", f"--target={target}", "-x", "ir", *words, "-emit-llvm", "-Wno-override-module"]
    return subprocess.run([*command, "-Xclang", "-disable-llvm-passes", "-o", "-", "-"], input=module, check=True,
                          capture_output=True).stdout


def text_of(tools, module):
    return translated(tools, module, "-S").decode("ascii")


def bitcode_of(tools, text, target=HOST):
    return translated(tools, text.encode("ascii"), "-c", target=target)


def changed(text, old, new):
    """A module with lengths of 32 bits, or with one text in place of another, at its last place."""
    if old is None:
        head, mark, body = text.rpartition("define noundef i32 @trogonreed_write_frame(")
        body = body.replace("i64 noundef %a4", "i32 noundef %a4", 1).replace("i64 noundef %a6", "i32 noundef %a6", 1)
        return head + mark + body.replace("store i64 %a4", "store i32 %a4").replace("store i64 %a6", "store i32 %a6")
    head, mark, tail = text.rpartition(old)
    assert mark, old
    return head + new + tail


def bits_of(data):
    """Bits in the order of bitcode: the low bit of a byte first."""
    return "".join(f"{byte:08b}"[::-1] for byte in data)


def with_layout(module, old, new):
    """A module with another layout, which clang does not write. In bitcode a letter has 12 bits."""
    def letters(text):
        return "".join(f"{ord(letter) % 32 + 32:06b}"[::-1] + f"{ord(letter) // 32:06b}"[::-1] for letter in text)
    bits = bits_of(module)
    assert bits.count(letters(old)) == 1 and len(old) == len(new)
    bits = bits.replace(letters(old), letters(new))
    return bytes(int(bits[place:place + 8][::-1], 2) for place in range(0, len(bits), 8))
