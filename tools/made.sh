# What ./blotter, tools/program and tools/release know of a built program. Bash scripts source it, with `top` set to the checkout.
#
# A program is known by the file SUMS beside it, three lines: `program` and the sha256 of the program, `sources` and the sum of the
# sources that it was proved and built of, `kit` and the toolchain that did it.

built=$top/crates/blotter_main/out/blotter_main   # the program that was proved and built here
released=$top/dist/blotter                        # the one that comes with the repository

say() {
    echo "blotter: $1" >&2
}

sha256() {
    sha256sum < "$1" | cut -d ' ' -f 1
}

# The sum of all that the proofs read of this checkout. It takes no toolchain.
sources() {
    (cd "$top" && find crates.txt crates/*/{src,specs,proofs} -type f \( -name '*.rt' -o -name '*.antt' -o -name crates.txt \) -print0) |
        LC_ALL=C sort -z | (cd "$top" && xargs -0 sha256sum) | sha256sum | cut -d ' ' -f 1
}

# What the file SUMS beside a program says under a word; nothing where it doesn't.
told() {
    sed -n "s/^$2 //p" "$(dirname "$1")/SUMS" 2> /dev/null
}

# Why a program isn't one that was proved and built of the sources with this sum, in a sentence; nothing where it is.
fault_of() {
    local program=$1 sum=$2 name=${1#"$top/"}
    if [[ ! -e $program ]]; then
        echo "there is no $name"
    elif [[ -z $(told "$program" program) || -z $(told "$program" sources) || $(told "$program" kit) != rattle-kit-* ]]; then
        echo "$(dirname "$name")/SUMS doesn't say which sources $name is of, and by which toolchain"
    elif [[ $(told "$program" sources) != "$sum" ]]; then
        echo "$name is of other sources"
    elif [[ ! -r $program || $(sha256 "$program") != "$(told "$program" program)" ]]; then
        echo "$name isn't the program that $(dirname "$name")/SUMS names: it was changed, or can't be read"
    fi
}

# Why a program, though it is of these sources, can't be run here; nothing where it can.
bar_of() {
    local program=$1 name=${1#"$top/"}
    if [[ $(uname -m) != x86_64 ]]; then
        echo "$name is for x86-64 processors, and this is $(uname -m)"
    elif [[ ! -x $program ]]; then
        echo "$name may not be run here: give it the permission (chmod +x $name)"
    fi
}

# Writes SUMS beside a program that was just made of the sources with this sum.
put_sums() {
    printf 'program %s\nsources %s\nkit %s\n' "$(sha256 "$1")" "$2" "$(rt version)" > "$(dirname "$1")/SUMS"
}
