"""A module of LLVM IR with each rule of tools/c-source, for tools/test-c-source.

Each function takes three numbers of 64 bits and returns one. A rule is
tried at each width from 1 to 64 bits that LLVM is likely to use, with numbers that vary and with written ones.
"""
import random

WIDTHS = 1, 2, 5, 8, 13, 16, 24, 31, 32, 40, 48, 63, 64
SIGNED = "sgt", "sge", "slt", "sle"
UNSIGNED = "eq", "ne", "ugt", "uge", "ult", "ule"
FUNCTIONS = {}


def add(name, *lines):
    """Adds a function with these lines, or with these texts of several lines."""
    body = [it.strip() for text in lines for it in text.split("\n") if it.strip()]
    body = [it if it.endswith(":") else f"  {it}" for it in body]
    text = "\n".join(body)
    FUNCTIONS[f"dcc_{name}"] = f"define i64 @dcc_{name}(i64 %a, i64 %b, i64 %c) {{\nstart:\n{text}\n}}\n"


def cut(value, width, name):
    return f"%{name} = trunc i64 %{value} to i{width}" if width < 64 else f"%{name} = add i64 %{value}, 0"


def returned(name, width):
    return f"%z = zext i{width} %{name} to i64\nret i64 %z" if width < 64 else f"ret i64 %{name}"


def add_operators(w):
    x = cut("a", w, "x")
    for op in "add sub mul and or xor udiv urem shl lshr".split():
        if w == 1 and op in ("udiv", "urem", "shl", "lshr"):
            continue
        y = f"%y = or i{w} %y0, {int(op in ('udiv', 'urem'))}"
        if op in ("shl", "lshr"):
            y = f"%y = urem i{w} %y0, {w}" if w != 2 else f"%y = and i{w} %y0, 1"
        both = f"{x}\n{cut('b', w, 'y0')}\n{y}"
        add(f"{op}_{w}", both, f"%r = {op} i{w} %x, %y", returned("r", w))
        number = random.Random(op + str(w)).randrange(1, 2 ** (w - 1)) if w > 1 else 1
        number = number % w if op in ("shl", "lshr") else number
        add(f"{op}_{w}_written", x, f"%r = {op} i{w} %x, {number}", returned("r", w))
        if op in ("sub", "shl", "lshr", "add"):
            add(f"{op}_{w}_of_written", both, f"%r = {op} i{w} {-1 if w > 1 else 'true'}, %y", returned("r", w))
    for to in WIDTHS:
        if to != w:
            op = "trunc" if to < w else "zext"
            add(f"{op}_{w}_{to}", x, f"%r = {op} i{w} %x to i{to}", returned("r", to))
        if to < w:
            fitting = f"%f = and i{w} %x, {2 ** to - 1}"
            add(f"trunc_nuw_{w}_{to}", x, fitting, f"%r = trunc nuw i{w} %f to i{to}", returned("r", to))
            add(f"trunc_nuw_nsw_{w}_{to}", x, f"%f = and i{w} %x, {2 ** (to - 1) - 1}",
                f"%r = trunc nuw nsw i{w} %f to i{to}", returned("r", to))
    if w == 1:
        for to in WIDTHS[1:]:
            add(f"sext_{to}", x, f"%r = sext i1 %x to i{to}", returned("r", to))
    add(f"select_{w}", x, cut("b", w, "y"), "%s = trunc i64 %c to i1", f"%r = select i1 %s, i{w} %x, i{w} %y",
        returned("r", w))


def add_comparisons(w):
    x, y = cut("a", w, "x"), cut("b", w, "y")
    for how in UNSIGNED + SIGNED:
        add(f"{how}_{w}", x, y, f"%r = icmp {how} i{w} %x, %y", returned("r", 1))
        if w > 1:
            add(f"{how}_{w}_written", x, f"%r = icmp {how} i{w} %x, {-(2 ** (w - 2))}", returned("r", 1))
            add(f"{how}_{w}_branch", x, y, f"%r = icmp {how} i{w} %x, %y", "br i1 %r, label %yes, label %no",
                "yes:", "ret i64 %a", "no:", "ret i64 %c")


def add_memory(w):
    """Writes and reads a number between other bytes, and reads these too."""
    for align in (1, w // 8) if w in (16, 32, 64) else (1,):
        add(f"memory_{w}_{align}", "%p = alloca [32 x i8], align 8",
            "call void @llvm.memset.p0.i64(ptr align 8 %p, i8 7, i64 32, i1 false)", cut("a", w, "x"), f"""
            %q = getelementptr i8, ptr %p, i64 {8 if align > 1 else 3}
            store i{w} %x, ptr %q, align {align}
            %y = load i{w}, ptr %q, align {align}
            %o = getelementptr i8, ptr %q, i64 -1
            %l = load i64, ptr %o, align 1
            %m = {f'zext i{w} %y to i64' if w < 64 else 'add i64 %y, 0'}
            %r = xor i64 %m, %l
            ret i64 %r""")


for width in WIDTHS:
    add_operators(width)
    add_comparisons(width)
    if width % 8 == 0:
        add_memory(width)
for width in (8, 16, 32, 64):
    for name in "umin umax smax uadd.sat usub.sat".split():
        add(f"{name.replace('.', '_')}_of_{width}", cut("a", width, "x"), cut("b", width, "y"),
            f"%r = call i{width} @llvm.{name}.i{width}(i{width} %x, i{width} %y)", returned("r", width))
    for name in ("cttz", "ctlz"):
        add(f"{name}_of_{width}", cut("a", width, "x"),
            f"%r = call range(i{width} 0, {width + 1}) i{width} @llvm.{name}.i{width}(i{width} %x, i1 false)",
            returned("r", width))
    add(f"abs_of_{width}", cut("a", width, "x"), f"%r = call i{width} @llvm.abs.i{width}(i{width} %x, i1 false)",
        returned("r", width))
    if width > 8:
        add(f"bswap_of_{width}", cut("a", width, "x"), f"%r = call i{width} @llvm.bswap.i{width}(i{width} %x)",
            returned("r", width))

# ---- numbers of 128 bits ----

WIDE = """%l = zext i64 %a to i128
    %h0 = zext i64 %b to i128
    %h = shl i128 %h0, 64
    %x = or i128 %l, %h
    %y0 = zext i64 %c to i128
    %n0 = urem i64 %c, 128
    %n = zext i64 %n0 to i128
    %y = xor i128 %x, 340282366920938463463374607431768211454"""
HALVES = """%p = alloca [16 x i8], align 16
    store i128 %r, ptr %p, align 16
    %v = load i128, ptr %p, align 16
    %t = trunc i128 %v to i64
    %u0 = lshr i128 %v, 64
    %u = trunc i128 %u0 to i64
    %w = mul i64 %u, 31
    %z = xor i64 %t, %w
    ret i64 %z"""
for name in "add sub mul and or xor".split():
    add(f"{name}_wide", WIDE, f"%r = {name} i128 %x, %y0", HALVES)
    add(f"{name}_wide_both", WIDE, f"%r = {name} i128 %y0, %x", HALVES)
    add(f"{name}_wide_near", WIDE, f"%r = {name} i128 %x, %y", HALVES)
    add(f"{name}_wide_written", WIDE, f"%r = {name} i128 %x, {2**127 + 2**64 - 5 - 2**128}", HALVES)
for name, of in (("", "%x, i128 %y0"), ("_both", "%y0, i128 %x"), ("_near", "%x, i128 %y")):
    add(f"usub_sat_wide{name}", WIDE, f"%r = call i128 @llvm.usub.sat.i128(i128 {of})", HALVES)
for name in ("shl", "lshr"):
    add(f"{name}_wide", WIDE, f"%r = {name} i128 %x, %n", HALVES)
    for by in (0, 1, 63, 64, 65, 127):
        add(f"{name}_wide_{by}", WIDE, f"%r = {name} i128 %x, {by}", HALVES)
for name in UNSIGNED:
    add(f"{name}_wide", WIDE, f"%r = icmp {name} i128 %x, %y", returned("r", 1))
    add(f"{name}_wide_low", WIDE, "%o = or i128 %h, %y0", f"%r = icmp {name} i128 %x, %o", returned("r", 1))
    add(f"{name}_wide_high", WIDE, "%g = shl i128 %y0, 64", "%o = or i128 %l, %g", f"%r = icmp {name} i128 %x, %o",
        returned("r", 1))
    add(f"{name}_wide_same", WIDE, "%e = add i128 %x, 0", f"%r = icmp {name} i128 %x, %e", returned("r", 1))
add("select_wide", WIDE, "%s = trunc i64 %c to i1", "%r = select i1 %s, i128 %x, i128 %y", HALVES)
for width in (1, 5, 8, 16, 32, 63, 64):
    add(f"sext_wide_{width}", cut("a", width, "x"), f"%r = sext i{width} %x to i128", HALVES)
for width in (1, 5, 16, 32, 63):
    add(f"trunc_wide_{width}", WIDE, f"%r = trunc i128 %x to i{width}", returned("r", width))

# ---- numbers of floating point ----

DOUBLES = """%i = uitofp i64 %a to double
    %j = uitofp i64 %b to double
    %k = uitofp i64 %c to double
    %d = fdiv double %i, %k
    %t = trunc i64 %c to i1
    %e = select i1 %t, double %j, double 0x7FF8000000000000"""
OF_DOUBLE = """%p = alloca double, align 8
    store double %r, ptr %p, align 8
    %v = load double, ptr %p, align 8
    store double %v, ptr %p, align 8
    %z = load i64, ptr %p, align 8
    ret i64 %z"""
for width in WIDTHS:
    add(f"uitofp_{width}", cut("a", width, "x"), f"%r = uitofp i{width} %x to double", OF_DOUBLE)
for name in ("fadd", "fmul", "fdiv"):
    add(f"{name}_of_doubles", DOUBLES, f"%r = {name} double %d, %j", OF_DOUBLE)
    add(f"{name}_both", DOUBLES, f"%r = {name} double %j, %d", OF_DOUBLE)
    for number, of in enumerate(("1.000000e+00", "0x3FB999999999999A", "-2.500000e-01", "1.000000e+22")):
        add(f"{name}_written_{number}", DOUBLES, f"%r = {name} double %d, {of}", OF_DOUBLE)
for name in ("olt", "ugt"):
    add(f"{name}_of_doubles", DOUBLES, f"%r = fcmp {name} double %d, %e", returned("r", 1))
    add(f"{name}_of_near", DOUBLES, f"%r = fcmp {name} double %i, %j", returned("r", 1))
    add(f"{name}_written", DOUBLES, f"%r = fcmp {name} double %d, 1.000000e+03", returned("r", 1))
add("fence", DOUBLES, "%m = fmul double %d, %j",
    "%f = call double @llvm.arithmetic.fence.f64(double %m)",
    "%r = fadd double %f, %i", OF_DOUBLE)
add("phi_of_doubles", DOUBLES, "br i1 %t, label %yes, label %no", "yes:", "%x = fadd double %d, %j", "br label %no",
    "no:", "%g = phi double [ %i, %start ], [ %x, %yes ]", "%r = freeze double %g", OF_DOUBLE)

# ---- rows of bytes ----

ROWS = """%p = alloca [80 x i8], align 8
    call void @llvm.memset.p0.i64(ptr align 8 %p, i8 7, i64 80, i1 false)
    store i64 %a, ptr %p, align 8
    %p1 = getelementptr i8, ptr %p, i64 8
    store i64 %b, ptr %p1, align 8
    %p2 = getelementptr i8, ptr %p, i64 16
    store i64 %c, ptr %p2, align 8
    %p3 = getelementptr i8, ptr %p, i64 29
    store i64 %a, ptr %p3, align 1
    %p4 = getelementptr i8, ptr %p, i64 55
    store i64 %b, ptr %p4, align 1
    %q = getelementptr i8, ptr %p, i64 13"""
for width in (8, 16, 32, 64):
    row, bits = f"<{width} x i8>", f"<{width} x i1>"
    both = f"%v = load {row}, ptr %p, align 1\n%w = load {row}, ptr %q, align 1"
    number = f"%m = bitcast {bits} %r to i{width}"
    for name in ("eq", "ne"):
        add(f"{name}_of_rows_{width}", ROWS, both, f"%r = icmp {name} {row} %v, %w", number, returned("m", width))
        add(f"{name}_of_rows_written_{width}", ROWS, both, f"%r = icmp {name} {row} %v, splat (i8 -1)", number,
            returned("m", width))
        add(f"{name}_of_rows_zero_{width}", ROWS, both, f"%r = icmp {name} {row} %w, zeroinitializer", number,
            returned("m", width))
    add(f"slt_of_rows_{width}", ROWS, both, f"%r = icmp slt {row} %v, zeroinitializer", number, returned("m", width))
    add(f"or_of_bits_of_rows_{width}", ROWS, both, f"%e = icmp eq {row} %v, %w",
        f"%f = icmp slt {row} %w, zeroinitializer", f"%r = or {bits} %e, %f", number, returned("m", width))
    add(f"or_of_bytes_of_rows_{width}", ROWS, both, f"%o = or {row} %v, %w", f"%r = icmp eq {row} %o, splat (i8 7)",
        number, returned("m", width))
    add(f"sext_of_rows_{width}", ROWS, both, f"%e = icmp ne {row} %v, %w", f"%x = sext {bits} %e to {row}",
        f"%o = or {row} %x, splat (i8 -128)", f"%r = icmp eq {row} %o, splat (i8 -1)", number, returned("m", width))
    for first, count in ((8, 8), (0, width // 2), (width // 2, width // 2)):
        if count >= 8 and first + count <= width:
            places = ", ".join(f"i32 {first + it}" for it in range(count))
            add(f"part_of_rows_{width}_{first}_{count}", ROWS, both,
                f"%o = shufflevector {row} %v, {row} poison, <{count} x i32> <{places}>",
                f"%r = icmp slt <{count} x i8> %o, zeroinitializer", f"%m = bitcast <{count} x i1> %r to i{count}",
                returned("m", count))

# ---- from block to block ----

LOOP_END = """%m = add i64 %n, 1
    %k = and i64 %c, 7
    %e = icmp ugt i64 %m, %k
    br i1 %e, label %out, label %loop
    out:"""
add("phis_swap", "br label %loop", "loop:", """
    %x = phi i64 [ %a, %start ], [ %y, %loop ]
    %y = phi i64 [ %b, %start ], [ %x, %loop ]
    %n = phi i64 [ 0, %start ], [ %m, %loop ]""", LOOP_END, """
    %r0 = mul i64 %y, 3
    %r = sub i64 %x, %r0
    ret i64 %r""")
add("phis_rotate", "br label %loop", "loop:", """
    %x = phi i64 [ %a, %start ], [ %y, %loop ]
    %y = phi i64 [ %b, %start ], [ %z, %loop ]
    %z = phi i64 [ %c, %start ], [ %x, %loop ]
    %n = phi i64 [ 0, %start ], [ %m, %loop ]""", LOOP_END, """
    %r0 = mul i64 %y, 3
    %r1 = sub i64 %x, %r0
    %r2 = mul i64 %z, 7
    %r = xor i64 %r1, %r2
    ret i64 %r""")
add("phis_of_steps", """%p = alloca [32 x i8], align 1
    call void @llvm.memset.p0.i64(ptr %p, i8 1, i64 32, i1 false)
    store i64 %a, ptr %p, align 1
    %last = getelementptr i8, ptr %p, i64 8
    br label %loop
    loop:
    %q = phi ptr [ %p, %start ], [ %q1, %loop ]
    %o = phi ptr [ %last, %start ], [ %q2, %loop ]
    %n = phi i64 [ 0, %start ], [ %m, %loop ]
    %v = load i8, ptr %q, align 1
    %v1 = add i8 %v, 3
    store i8 %v1, ptr %o, align 1
    %q1 = getelementptr i8, ptr %q, i64 1
    %q2 = getelementptr i8, ptr %q, i64 3
    %m = add i64 %n, 1
    %e = icmp ugt i64 %m, 5
    br i1 %e, label %out, label %loop
    out:
    %l = load i64, ptr %p, align 1
    %h = load i64, ptr %last, align 1
    %r0 = mul i64 %l, 3
    %r = xor i64 %r0, %h
    ret i64 %r""")
add("values_of_later_blocks", """%p = alloca [32 x i8], align 1
    call void @llvm.memset.p0.i64(ptr %p, i8 1, i64 32, i1 false)
    store i64 %a, ptr %p, align 1
    br label %first
    again:
    store i8 7, ptr %q1, align 1
    br i1 %e, label %out, label %first
    first:
    %q = phi ptr [ %p, %start ], [ %q1, %again ]
    %n = phi i64 [ 0, %start ], [ %m, %again ]
    %v = load i8, ptr %q, align 1
    %q1 = getelementptr i8, ptr %q, i64 2
    %m = add i64 %n, 1
    %e = icmp ugt i64 %m, 5
    br label %again
    out:
    %r = load i64, ptr %p, align 1
    ret i64 %r""")
add("branches", """%s = trunc i64 %a to i1
    %t = trunc i64 %b to i1
    br i1 %s, label %one, label %two
    one:
    %x = phi i64 [ %b, %start ], [ %y, %two ]
    %v = mul i64 %x, 3
    br i1 %t, label %out, label %three
    two:
    %y = add i64 %c, 5
    br i1 %t, label %one, label %out
    three:
    br label %out
    out:
    %r = phi i64 [ %v, %one ], [ %y, %two ], [ %a, %three ]
    ret i64 %r""")
add("switch", """%x = trunc i64 %a to i8
    %y = and i8 %x, 7
    switch i8 %y, label %other [
    i8 0, label %one
    i8 1, label %one
    i8 5, label %two
    i8 -1, label %two
    i8 6, label %other
    ]
    one:
    %p1 = phi i64 [ %b, %start ], [ %b, %start ]
    br label %out
    two:
    br label %out
    other:
    br label %out
    out:
    %r = phi i64 [ %p1, %one ], [ %c, %two ], [ %a, %other ]
    ret i64 %r""")
add("unreachable", """%s = icmp ule i64 %a, -1
    br i1 %s, label %yes, label %no
    yes:
    ret i64 %b
    no:
    call void @llvm.trap()
    unreachable""")
add("unused", "%s = icmp eq i64 %a, %a", "call void @llvm.assume(i1 %s)", "%x = udiv i64 %a, 3", "ret i64 %c")

# ---- calls and structures ----

# the names of two functions begin with these 70 characters, and a compiler of C99 may compare only 63
LONG = '"module::slice_T_starts_with__i8_31_core_cmp_numbers_U8PartialEq__and_a'

add("calls", """%x = trunc i64 %a to i8
    %y = trunc i64 %b to i16
    %s = call { i8, i16 } @pair(i8 %x, i16 %y)
    %f = extractvalue { i8, i16 } %s, 0
    %g = extractvalue { i8, i16 } %s, 1
    %f1 = zext i8 %f to i64
    %g1 = zext i16 %g to i64
    %r0 = shl i64 %f1, 16
    %r = or i64 %r0, %g1
    ret i64 %r""")
add("calls_for_effect", """%p = alloca i64, align 8
    store i64 %a, ptr %p, align 8
    call fastcc void @"module::Type::add_to"(ptr noundef nonnull %p, i64 %b)
    %d = call i64 @"module::double"(ptr %p)
    %r = load i64, ptr %p, align 8
    ret i64 %r""")
add("calls_of_long_names", f"%x = call i64 @{LONG}_more\"(i64 %a)", f"%y = call i64 @{LONG}_less\"(i64 %b)",
    "%r = xor i64 %x, %y", "ret i64 %r")
add("calls_of_the_system", "%p = alloca i64, align 8", "store i64 %a, ptr %p, align 8",
    "%s = call i64 @outer(i64 %b, ptr nonnull %p)", "%v = load i64, ptr %p, align 8", "%r = xor i64 %s, %v",
    "ret i64 %r")
add("calls_by_address", """%p = alloca i64, align 8
    store i64 %a, ptr %p, align 8
    %i = urem i64 %b, 2
    %s = getelementptr ptr, ptr @codes, i64 %i
    %f = load ptr, ptr %s, align 8
    %d = call i64 %f(ptr noundef %p)
    %g = select i1 true, ptr @"module::double", ptr null
    %e = call i64 %g(ptr noundef %p)
    %v = load i64, ptr %p, align 8
    %r0 = mul i64 %d, 5
    %r1 = xor i64 %r0, %e
    %r = xor i64 %r1, %v
    ret i64 %r""")
add("structures", """%x = trunc i64 %a to i8
    %y = trunc i64 %b to i16
    %s = insertvalue { i8, i16 } { i8 7, i16 9 }, i8 %x, 0
    %t = insertvalue { i8, i16 } { i8 5, i16 poison }, i16 %y, 1
    %g = extractvalue { i8, i16 } %s, 1
    %f = extractvalue { i8, i16 } %t, 0
    %h = extractvalue { i8, i16 } %t, 1
    %i = extractvalue { i8, i16 } %s, 0
    %g1 = zext i16 %g to i64
    %f1 = zext i8 %f to i64
    %h1 = zext i16 %h to i64
    %i1 = zext i8 %i to i64
    %r0 = shl i64 %f1, 16
    %r1 = shl i64 %h1, 24
    %r2 = shl i64 %i1, 40
    %r3 = or i64 %r0, %r1
    %r4 = or i64 %r2, %g1
    %r = or i64 %r3, %r4
    ret i64 %r""")
add("structures_in_memory", """%p = alloca [24 x i8], align 8
    %q = getelementptr i8, ptr %p, i64 8
    %k = getelementptr i8, ptr %p, i64 1
    call void @llvm.memset.p0.i64(ptr align 8 %p, i8 1, i64 24, i1 false)
    %x = trunc i64 %a to i8
    %s0 = insertvalue { i8, ptr } poison, i8 %x, 0
    %s = insertvalue { i8, ptr } %s0, ptr %k, 1
    store { i8, ptr } %s, ptr %p, align 8
    %b1 = load i8, ptr %p, align 8
    %o = load ptr, ptr %q, align 8
    %t = load { i8, ptr }, ptr %p, align 8
    %f = extractvalue { i8, ptr } %t, 0
    %g = extractvalue { i8, ptr } %t, 1
    %e = icmp eq ptr %g, %o
    store { i8, i64 } { i8 9, i64 77 }, ptr %p, align 8
    %l = load i64, ptr %q, align 8
    %d = load i8, ptr %p, align 1
    %f1 = zext i8 %f to i64
    %b2 = zext i8 %b1 to i64
    %e1 = zext i1 %e to i64
    %d1 = zext i8 %d to i64
    %r0 = shl i64 %f1, 40
    %r1 = shl i64 %b2, 30
    %r2 = shl i64 %e1, 20
    %r3 = shl i64 %d1, 10
    %r4 = or i64 %r0, %r1
    %r5 = or i64 %r2, %r3
    %r6 = or i64 %r4, %r5
    %r = add i64 %r6, %l
    ret i64 %r""")
add("freeze", "%x = freeze i64 %a", "%r = xor i64 %x, %b", "ret i64 %r")

# ---- memory ----

add("tables", """%x = urem i64 %a, 4
    %e = getelementptr inbounds nuw i16, ptr @numbers, i64 %x
    %v = load i16, ptr %e, align 2
    %s = getelementptr inbounds nuw ptr, ptr @places, i64 %x
    %q = load ptr, ptr %s, align 8
    %f = load i8, ptr %q, align 1
    %y = urem i64 %b, 3
    %g = getelementptr inbounds i8, ptr @static.1, i64 %y
    %h = load i8, ptr %g, align 1
    %w = getelementptr inbounds i64, ptr @long, i64 %y
    %u = load i64, ptr %w, align 8
    %v1 = zext i16 %v to i64
    %f1 = zext i8 %f to i64
    %h1 = zext i8 %h to i64
    %r0 = shl i64 %v1, 8
    %r1 = or i64 %r0, %f1
    %r2 = shl i64 %h1, 32
    %r3 = or i64 %r1, %r2
    %r = xor i64 %r3, %u
    ret i64 %r""")
add("constants_of_several_types", """%i = urem i64 %a, 48
    %g = getelementptr i8, ptr @mixed, i64 8
    %n = load i64, ptr %g, align 8
    %q = load ptr, ptr @mixed, align 8
    %t = load i8, ptr %q, align 1
    %k = getelementptr i8, ptr @mixed, i64 16
    %f = load ptr, ptr %k, align 8
    %p = alloca i64, align 8
    store i64 %b, ptr %p, align 8
    %d = call i64 %f(ptr %p)
    %m = urem i64 %c, 24
    %o = getelementptr i8, ptr @mixed, i64 24
    %h = getelementptr i8, ptr %o, i64 %m
    %y = load i8, ptr %h, align 1
    %t1 = zext i8 %t to i64
    %y1 = zext i8 %y to i64
    %r0 = mul i64 %d, 3
    %r1 = xor i64 %r0, %n
    %r2 = shl i64 %t1, 50
    %r3 = xor i64 %r1, %r2
    %r4 = shl i64 %y1, 20
    %r = xor i64 %r3, %r4
    ret i64 %r""")
add("places_in_constants", """%l = load i8, ptr getelementptr inbounds nuw (i8, ptr @static.1, i64 2), align 1
    %m = load ptr, ptr getelementptr (i8, ptr @inside, i64 8), align 8
    %v = load i8, ptr %m, align 1
    %o = getelementptr i8, ptr @ring, i64 8
    %u = load ptr, ptr %o, align 8
    %w = icmp eq ptr %u, @ring
    %y0 = zext i1 %w to i64
    %y1 = add i64 %b, %y0
    %y = urem i64 %y1, 3
    %g = getelementptr i8, ptr @static.1, i64 %y
    %n = ptrtoint ptr %g to i64
    %d = sub i64 %n, ptrtoaddr (ptr @static.1 to i64)
    %i = urem i64 %c, 4
    %h = getelementptr i8, ptr @slashes, i64 %i
    %s = load i8, ptr %h, align 1
    %l1 = zext i8 %l to i64
    %v1 = zext i8 %v to i64
    %s1 = zext i8 %s to i64
    %r0 = shl i64 %l1, 30
    %r1 = shl i64 %v1, 20
    %r2 = shl i64 %s1, 10
    %r3 = or i64 %r0, %r1
    %r4 = or i64 %r2, %d
    %r = or i64 %r3, %r4
    ret i64 %r""")
add("pointers_of_numbers", """%p = alloca [16 x i8], align 8
    call void @llvm.memset.p0.i64(ptr align 8 %p, i8 7, i64 16, i1 false)
    store i64 %a, ptr %p, align 8
    %n = ptrtoint ptr %p to i64
    %i = urem i64 %b, 9
    %m = add i64 %n, %i
    %q = inttoptr i64 %m to ptr
    %r = load i64, ptr %q, align 1
    ret i64 %r""")
add("steps", """%p = alloca [64 x i8], align 8
    call void @llvm.memset.p0.i64(ptr align 8 %p, i8 3, i64 64, i1 false)
    %m = getelementptr i8, ptr %p, i64 32
    %i0 = urem i64 %a, 7
    %i = sub i64 3, %i0
    %q = getelementptr ptr, ptr %m, i64 %i
    store i64 %b, ptr %q, align 8
    %q1 = getelementptr i32, ptr %m, i64 %i
    store i32 77, ptr %q1, align 4
    %q2 = getelementptr ptr, ptr %q, i64 -1
    store i8 9, ptr %q2, align 1
    br label %loop
    loop:
    %n = phi i64 [ 0, %start ], [ %n1, %loop ]
    %s = phi i64 [ %c, %start ], [ %s2, %loop ]
    %o = getelementptr i64, ptr %p, i64 %n
    %v = load i64, ptr %o, align 8
    %s1 = mul i64 %s, 31
    %s2 = xor i64 %s1, %v
    %n1 = add i64 %n, 1
    %e = icmp eq i64 %n1, 8
    br i1 %e, label %out, label %loop
    out:
    ret i64 %s2""".replace("store i8 9, ptr %q2, align 1", ""))
MOVED = """%l = load i64, ptr %p, align 8
    %h = load i64, ptr %q, align 8
    %k = getelementptr i8, ptr %p, i64 16
    %u = load i64, ptr %k, align 8
    %r0 = mul i64 %l, 3
    %r1 = mul i64 %h, 5
    %r2 = xor i64 %r0, %r1
    %r = xor i64 %r2, %u
    ret i64 %r"""
STORED = """%p = alloca [24 x i8], align 8
    call void @llvm.memset.p0.i64(ptr align 8 %p, i8 9, i64 24, i1 false)
    store i64 %a, ptr %p, align 8
    %q = getelementptr i8, ptr %p, i64 8
    store i64 %b, ptr %q, align 8
    %n = urem i64 %c, 9"""
add("memmove", STORED, "%t = getelementptr i8, ptr %p, i64 5",
    "call void @llvm.memmove.p0.p0.i64(ptr %t, ptr %p, i64 %n, i1 false)", MOVED)
add("memmove_written", STORED, "%t = getelementptr i8, ptr %p, i64 4",
    "call void @llvm.memmove.p0.p0.i64(ptr align 4 %t, ptr align 8 %p, i64 13, i1 false)", MOVED)
add("memcpy", STORED, "%t = getelementptr i8, ptr %p, i64 12",
    "call void @llvm.memcpy.p0.p0.i64(ptr align 4 %t, ptr align 8 %p, i64 %n, i1 false)", MOVED)
add("memset", STORED, "%v = trunc i64 %b to i8", "%t = getelementptr i8, ptr %p, i64 7",
    "call void @llvm.memset.p0.i64(ptr %t, i8 %v, i64 %n, i1 false)", MOVED)
add("pointers", """%p = alloca ptr, align 8
    %q = alloca [16 x i8], align 8
    %n = alloca ptr, align 8
    store i64 %a, ptr %q, align 8
    store ptr %q, ptr %p, align 8
    call void @llvm.memmove.p0.p0.i64(ptr align 8 %n, ptr align 8 %p, i64 8, i1 false)
    %t = load ptr, ptr %n, align 8
    %e = icmp eq ptr %t, %q
    %l = load i64, ptr %t, align 8
    %z = zext i1 %e to i64
    %r = sub i64 %l, %z
    ret i64 %r""")
for name in UNSIGNED:
    add(f"{name}_of_places", f"""%p = alloca [32 x i8], align 8
        %i = urem i64 %a, 32
        %j = urem i64 %b, 32
        %x = getelementptr i8, ptr %p, i64 %i
        %y = getelementptr i8, ptr %p, i64 %j
        %s = trunc i64 %c to i1
        %o = select i1 %s, ptr %y, ptr %x
        %e = icmp {name} ptr %x, %o""", returned("e", 1))
for name in ("ptrtoaddr", "ptrtoint"):
    add(f"{name}_distance", f"""%p = alloca [32 x i8], align 8
        %i = urem i64 %a, 32
        %j = urem i64 %b, 32
        %x = getelementptr i8, ptr %p, i64 %i
        %y = getelementptr i8, ptr %p, i64 %j
        %u = {name} ptr %x to i64
        %v = {name} ptr %y to i64
        %r = sub i64 %u, %v
        ret i64 %r""")
add("shared_places", """%p = alloca i64, align 8
    %q = alloca i64, align 8
    %s = alloca i64, align 8
    call void @llvm.lifetime.start.p0(ptr nonnull %p)
    store i64 %a, ptr %p, align 8
    call void @llvm.lifetime.start.p0(ptr nonnull %q)
    store i64 %b, ptr %q, align 8
    %x = load i64, ptr %p, align 8
    call void @llvm.lifetime.end.p0(ptr nonnull %p)
    call void @llvm.lifetime.start.p0(ptr nonnull %s)
    store i64 %c, ptr %s, align 8
    %y = load i64, ptr %q, align 8
    %z = load i64, ptr %s, align 8
    %r0 = mul i64 %x, 3
    %r1 = mul i64 %y, 5
    %r2 = xor i64 %r0, %r1
    %r = xor i64 %r2, %z
    ret i64 %r""")

MIXED = (
    r'<{ ptr, [8 x i8], ptr, [16 x i8], [8 x i8] }> <{ ptr @second, [8 x i8] c"\01\02abc\FFde", '
    r'ptr @"module::triple", [16 x i8] zeroinitializer, [8 x i8] c"12345678" }>'
)
HEAD = r"""target datalayout = "e-m:e-p270:32:32-p271:32:32-p272:64:64-i64:64-i128:128-f80:128-n8:16:32:64-S128"
target triple = "x86_64-unknown-linux-gnu"
@numbers = private unnamed_addr constant [4 x i16] [i16 1, i16 -2, i16 300, i16 32767], align 2
@static.1 = private unnamed_addr constant [3 x i8] c"a\00\FF", align 1
@second = private unnamed_addr constant [1 x i8] c"z", align 1
@places = private unnamed_addr constant [4 x ptr] [ptr @static.1, ptr @second, ptr @second, ptr @static.1], align 8
@long = private unnamed_addr constant [3 x i64] [i64 -9223372036854775808, i64 5, i64 1099511627776], align 8

@slashes = private unnamed_addr constant [4 x i8] c"a\\b\22", align 1
@inside = private constant [2 x ptr] [ptr @second, ptr getelementptr inbounds (i8, ptr @static.1, i64 2)], align 8
@ring = private constant [2 x ptr] [ptr @static.1, ptr @ring], align 8
@codes = private constant [2 x ptr] [ptr @"module::double", ptr @"module::triple"], align 8
@mixed = private constant MIXED, align 8

declare noundef i64 @outer(i64 noundef, ptr noundef captures(none)) local_unnamed_addr

; the first functions of a program. The translator leaves out the first of the two
define i32 @main() {
start:
  call void asm sideeffect "nop", ""()
  %r = call i32 @"dcc::main+start"()
  ret i32 %r
}

define internal i32 @"dcc::main+start"() {
start:
  %p = alloca i64, align 8
  store i64 77, ptr %p, align 8
  %s = call i64 @outer(i64 5, ptr %p)
  %r = trunc i64 %s to i32
  ret i32 %r
}

define internal { i8, i16 } @pair(i8 %x, i16 %y) {
start:
  %s = icmp ugt i8 %x, 100
  br i1 %s, label %yes, label %no
yes:
  br label %no
no:
  %p = phi { i8, i16 } [ { i8 3, i16 poison }, %start ], [ { i8 4, i16 5 }, %yes ]
  %r = insertvalue { i8, i16 } %p, i16 %y, 1
  ret { i8, i16 } %r
}

define internal fastcc void @"module::Type::add_to"(ptr noundef nonnull %x, i64 %y) {
start:
  %v = load i64, ptr %x, align 8
  %r = add i64 %v, %y
  store i64 %r, ptr %x, align 8
  ret void
}

define internal i64 @LONG_more"(i64 %x) {
start:
  %r = add i64 %x, 3
  ret i64 %r
}

define internal i64 @LONG_less"(i64 %x) {
start:
  %r = mul i64 %x, 5
  ret i64 %r
}

define internal i64 @"module::triple"(ptr %x) {
start:
  %v = load i64, ptr %x, align 8
  %r = mul i64 %v, 3
  store i64 %r, ptr %x, align 8
  ret i64 %r
}

define internal i64 @"module::double"(ptr %x) {
start:
  %v = load i64, ptr %x, align 8
  %r = shl i64 %v, 1
  store i64 %r, ptr %x, align 8
  ret i64 %r
}

"""
DRIVER = r"""#include <stdio.h>
static const uint64_t edges[] = {
    0, 1, 2, 7, 127, 128, 255, 256, 32767, 32768, 65535, 65536, 0x7fffffff, 0x80000000u, 0xffffffffu, 1ull << 47,
    1ull << 62, 1ull << 63, ~0ull, ~0ull - 1
};
static uint64_t state = 88172645463325252ull;
static uint64_t next(void) {
    state ^= state << 13;
    state ^= state >> 7;
    state ^= state << 17;
    return state % 3 ? state >> (state % 61) : edges[state / 3 % 20];
}
/* a function of the system, for the module and for the C */
uint64_t outer(uint64_t x, unsigned char *place) {
    place[1] ^= 9;
    return x * 31 + place[0];
}
uint64_t dcc_system_outer(uint64_t x, unsigned char *place) { return outer(x, place); }
uint32_t dcc_main(void), module_main(void);
static unsigned long wrong, tried;
typedef uint64_t function(uint64_t, uint64_t, uint64_t);
static void compare(const char *name, function *f, function *g) {
    unsigned long i, before = wrong;
    for (i = 0; i < ROUNDS && wrong < before + 3; i++) {
        uint64_t a = next(), b = i % 5 ? next() : a, c = next(), x = f(a, b, c), y = g(a, b, c);
        tried++;
        if (x == y) continue;
        wrong++;
        printf("%s %llx %llx %llx: %llx, in C %llx\n", name, (unsigned long long)a, (unsigned long long)b,
               (unsigned long long)c, (unsigned long long)x, (unsigned long long)y);
    }
}
"""


def names(is_short):
    """Returns the names of the functions; of a few widths if is_short."""
    left_out = {str(it) for it in WIDTHS} - {"1", "5", "8", "16", "24", "32", "64"}
    return [it for it in FUNCTIONS if not (is_short and left_out & set(it.split("_")))]


def module(wanted):
    return HEAD.replace("MIXED", MIXED).replace("LONG", LONG) + "\n".join(FUNCTIONS[it] for it in wanted)


def header(wanted):
    return "#include <stdint.h>\n" + "".join(f"uint64_t {it}(uint64_t a, uint64_t b, uint64_t c);\n" for it in wanted)


def driver(wanted):
    calls = "".join(f'    compare("{it}", {it}, c_{it});\n' for it in wanted)
    return (
        header(wanted) + header(wanted).replace(" dcc_", " c_dcc_") + DRIVER + "int main(void) {\n" + calls
        + '    if (dcc_main() != module_main()) wrong++, printf("the first function of a program\\n");\n'
        + '    printf("%lu calls, %lu differ\\n", tried, wrong);\n    return wrong > 0;\n}\n'
    )
