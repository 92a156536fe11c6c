# Sourced by the benches that run a program of their own, at the top of the repository. Not part of the gate.

# bench_program NAME TYPE CRATE.. reads a program's source and makes of it the crate NAME in "$work", beside copies of these
# crates, lowest first. Its `answer(&rt)`, of an Option of TYPE, is what it prints. It then proves, builds and runs it with the
# words in "$first", which takes some minutes the first time.
bench_program() {
    local name="$1" type="$2"
    shift 2
    mkdir -p "$work/crates/$name/src"
    for crate in "$@"; do
        cp -r "crates/$crate" "$work/crates/"
        grep "^$crate:" crates.txt
    done > "$work/crates.txt"
    echo "$name: $*" >> "$work/crates.txt"
    cat - > "$work/crates/$name/src/main.rt"
    cat >> "$work/crates/$name/src/main.rt" <<RATTLE

fn main(rt: HostRuntime) -> ExitCode {
    let answer: Option<$type> = answer(&rt);
    if answer.is_none() {
        return ExitCode::FAILURE;
    }
    match println!(rt; "{}", answer.unwrap_or(0)) {
        Ok(()) => ExitCode::SUCCESS,
        Err(_) => ExitCode::FAILURE,
    }
}
RATTLE
    [ -d "$work/.git" ] || git -C "$work" init -q
    (cd "$work/crates/$name" && rt run -- $first)
    program="$work/crates/$name/out/$name"
}

# crates_below CRATE.. prints the crates of the repository that these stand on, and they themselves, lowest first.
crates_below() {
    awk -v wanted="$*" '
        function mark(crate,    i, count, parts) {
            if (!(crate in below) || crate in seen) return
            seen[crate] = 1
            count = split(below[crate], parts, " ")
            for (i = 1; i <= count; i++) mark(parts[i])
            print crate
        }
        /^[a-z_]+:/ { name = $1; sub(/:$/, "", name); $1 = ""; below[name] = $0 }
        END { count = split(wanted, all, " "); for (i = 1; i <= count; i++) mark(all[i]) }' crates.txt
}
