"""A copy of the kit, of links, for 'rt try': it keeps what is built, and builds it as 'rt run' does."""

# What 'rt try' gives the two tools that is taken away or given otherwise.
NOTHING = "#!/bin/sh\n"
CLANG = r"""#!/bin/bash
given=()
for word in "$@"; do
    case $word in
    -O0) given+=(-O3) ;;
    -fsanitize=address) ;;
    *) given+=("$word") ;;
    esac
done
exec "%(real)s" "${given[@]}"
"""
LINKER = r"""#!/bin/bash
given=()
for word in "$@"; do
    case $word in
    --whole-archive) whole=yes ;;
    --no-whole-archive) whole= ;;
    esac
    [ -n "${whole-}" ] || given+=("$word")
    [ "$last" != -o ] || made=$word
    last=$word
done
"%(real)s" "${given[@]}" && cp "$made" "%(to)s"
"""


def lay_links(kit, real, owns):
    """Makes the folder `kit` like the real one, of links, but for these names."""
    kit.mkdir()
    for it in real.iterdir():
        if it.name not in owns:
            (kit / it.name).symlink_to(it)


def lay_tool(tools, text, **words):
    tools.write_text(text % {"real": "", **words})
    tools.chmod(0o755)


def lay_kit(kit, real, to):
    """Makes the kit in the folder `kit`, of the one in `real`, and returns its command rt. What it builds it copies to
    the file `to`: optimized, and without checks of accesses to memory; those of sums and indexes stay."""
    lay_links(kit, real, ("bin", "toolchain"))
    # rt looks for its kit from the place of its own file. Beside each try it has rattle look for names that a check
    # would refuse, which takes as long as the try: here a check comes before or after.
    own = ("rt", "rtlib.py", "rattle")
    lay_links(kit / "bin", real / "bin", own)
    for it in own[:2]:
        (kit / "bin" / it).write_bytes((real / "bin" / it).read_bytes())
    (kit / "bin/rt").chmod(0o755)
    lay_tool(kit / "bin/rattle", NOTHING)
    tools = real / "toolchain/bin"
    lay_links(kit / "toolchain", real / "toolchain", ("bin",))
    lay_links(kit / "toolchain/bin", tools, ("clang", "ld.lld"))
    lay_tool(kit / "toolchain/bin/clang", CLANG, real=tools / "clang")
    lay_tool(kit / "toolchain/bin/ld.lld", LINKER, real=tools / "ld.lld", to=to)
    return kit / "bin/rt"
