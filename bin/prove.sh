# How a command has crates proved (one run at a time in a checkout, a line a crate, rt's own words in a log), and runs a proved program. bin/clocks,
# bin/tray and include/archive read this file; they set `root`, the repository, and `me`, what their lines begin with. At its end stands what the commands
# of bin/ share: how they read bytes, and how they write an answer.

say() { printf '%s: %s\n' "$me" "$*" >&2; }

# One clear line, and status 2: nothing was done.
fail() { say "$*"; exit 2; }

need_kit() { command -v rt >/dev/null 2>&1 || fail "the Rattle kit's \`rt\` is not on PATH"; }

# The named crates and what they stand on, in the order of crates.txt, which doesn't list the kit's own.
with_below() { # CRATE..
    awk -v wanted="$*" '
        /^#/ { next }
        /:/ { name = $1; sub(/:.*/, "", name); order[++n] = name; sub(/^[^:]*:/, ""); below[name] = $0 }
        END {
            k = split(wanted, queue)
            for (i = 1; i <= k; i++) {
                if (taken[queue[i]]++) continue
                more = split(below[queue[i]], found)
                for (j = 1; j <= more; j++) queue[++k] = found[j]
            }
            for (i = 1; i <= n; i++) if (order[i] in taken) print order[i]
        }' "$root/crates.txt"
}

# One word for everything that these crates are proved from. Wrong answers are not among it, nor what rt leaves in out/.
sources() { # CRATE..
    (
        cd "$root" || exit
        for crate in $(with_below "$@"); do
            grep "^${crate}[ :]" crates.txt
            find "crates/$crate" -type f ! -path '*/must-fail/*' ! -path "crates/$crate/out/*" -exec sha256sum {} + | LC_ALL=C sort
        done | sha256sum
    )
}

# What a mark keeps once a file is made: the word of the sources that were proved, and the file's own.
mark_of() { # SOURCES FILE
    printf '%s %s\n' "$1" "$(sha256sum <"$2")"
}

# Whether FILE is there, and is what was made of these crates as they are.
is_made() { # MARK FILE CRATE..
    mark=$1 file=$2
    shift 2
    [ -f "$mark" ] && [ -f "$file" ] && [ "$(cat "$mark")" = "$(mark_of "$(sources "$@")" "$file")" ]
}

# Takes the checkout for this run. It is free again after `release`, or where the run ends or is killed.
hold() {
    { mkdir -p "$root/target" && : >>"$root/target/lock"; } 2>/dev/null || fail "not built yet, and it can't be built here: $root/target can't be written"
    exec 9>>"$root/target/lock"
    flock -n 9 || { say 'waits for another run that proves in this checkout'; flock 9; }
}

release() { exec 9>&-; }

# How many crates are proved at a time: as many as there are processors and, at two gigabytes each, memory.
at_once() {
    awk -v most="$(nproc)" '/^MemAvailable:/ { n = int($2 / 2000000) } END { if (n < 1) n = 1; if (n > most) n = most; print n }' /proc/meminfo
}

# Reads what rt says, and a line `status N`. Shows a line for each of TOTAL crates that is proved, and one for what is not, with the log that says why.
# Status 1 where one is not. Of a crate rt says `== CRATE` and what its check says, which is nothing where it was proved before; at the end, how each came out.
count_proved() { # LOG TOTAL
    awk -v log_file="$1" -v total="$2" -v me="$me" '
        function proved(crate) {
            if (crate != "" && !told[crate]++) { printf "%s: %d of %d proved: %s\n", me, ++n, total, crate; fflush() }
        }
        /^== / {
            if (silent) proved(crate)
            crate = $2
            silent = 1
            ended = crate == "summary"
            next
        }
        !/^rt: [a-z0-9_]*: begins with what a check kept/ { silent = 0 }
        !ended && /^logic=proved/ { proved(crate) }
        ended && sub(/: ok$/, "") { proved($0) }
        ended && /: failed \(/ { sub(/:.*/, ""); bad = bad " " $0 }
        $1 == "status" && $2 != 0 { failed = 1 }
        END {
            if (bad != "") printf "%s: not proved:%s (%s has what rt says)\n", me, bad, log_file
            else if (failed) printf "%s: rt failed (%s has what it says)\n", me, log_file
            exit failed
        }' >&2
}

# Proves a crate and what it stands on. LOG is named from the repository.
prove() { # LOG CRATE
    (
        cd "$root" || exit
        {
            status=0
            (cd "crates/$2" && rt all check --jobs "$(at_once)") 2>&1 || status=$?
            echo "status $status"
        } | tee "$1" | count_proved "$1" "$(with_below "$2" | wc -l)"
    )
}

# Takes over a program that rt has just proved and built of these sources: its place for us is target/bin.
take() { # SOURCES PROGRAM
    mkdir -p "$root/target/bin" && cp "$root/crates/$2/out/$2" "$root/target/bin/$2" && mark_of "$1" "$root/target/bin/$2" >"$root/target/$2.proved"
}

# Proves and builds a program where it is missing or was made of other sources. An unproved one is never run: the mark is set once the check has passed.
build() { # PROGRAM
    program=$root/target/bin/$1 proved=$root/target/$1.proved
    is_made "$proved" "$program" "$1" && return
    need_kit
    hold
    is_made "$proved" "$program" "$1" && release && return
    say "proves and builds the program first, which takes a few minutes the first time; target/$1.log has what rt says"
    rm -f "$proved"
    before=$(sources "$1")
    prove "target/$1.log" "$1" || exit 2
    # rt builds a program to run it. The status is then the program's own, so a line of rt says that it was built.
    (cd "$root/crates/$1" && rt run </dev/null 2>&1 >/dev/null) >>"$root/target/$1.log"
    grep -q "^rt: running out/$1" "$root/target/$1.log" || fail "rt could not build the program (target/$1.log has what it says)"
    take "$before" "$1" || fail "target/bin/$1 can't be written"
    release
}

# Programs are compiled for x86-64, and run there as they are.
need_machine() { [ "$(uname -m)" = x86_64 ] || fail "the programs are for x86-64, and this machine, $(uname -m), is not"; }

# Runs a program that is built.
run() { # PROGRAM
    "$root/target/bin/$1"
}

# Nothing is done where the answer could not be written.
need_output() { (exec 3>&1) 2>/dev/null || fail 'standard output is closed'; }

# Writes a text; where that fails, the status is no answer's.
show() { printf '%s\n' "$1" 2>/dev/null || fail "standard output can't be written"; }

need_input() { (exec 3<&0) 2>/dev/null || fail 'standard input is closed'; }

# A file that can be read.
need_file() { # FILE
    [ -e "$1" ] || fail "there is no file $1"
    [ ! -d "$1" ] || fail "$1 is a folder"
    [ -r "$1" ] || fail "$1 can't be read"
}

# Standard input is a file, a pipe or the like: open, no terminal, and not /dev/null.
is_given() { (exec 3<&0) 2>/dev/null && [ ! -t 0 ] && ! [ /dev/fd/0 -ef /dev/null ]; }

# The first byte of standard input. Where none comes for a while, a line says what is awaited, and where from.
first() { # AWAITED
    timeout --foreground 3 dd bs=1 count=1 2>/dev/null
    status=$?
    [ $status -ne 124 ] || { say "waits for $1 (bin/$me --help)"; status=0; dd bs=1 count=1 2>/dev/null || status=$?; }
    return $status
}

# The first bytes of standard input, up to MOST, as hexadecimal words; the word `unread` where it can't be read.
# With `all` the rest is read too and thrown away, so that a writer sees no broken pipe.
words() { # AWAITED MOST [all]
    {
        { first "$1" && head -c $(($2 - 1)) 2>/dev/null && { [ "${3-}" != all ] || cat >/dev/null 2>&1; } || echo unread >&3; } | od -An -v -tx1
    } 3>&1
}

# Words in hexadecimal as bytes.
bytes() { # WORD ..
    printf '%b' "$(printf '%s\n' "$*" | awk '
        BEGIN { for (i = 0; i < 256; i++) octal[sprintf("%02x", i)] = sprintf("\\0%03o", i) }
        { for (i = 1; i <= NF; i++) printf "%s", octal[tolower($i)] }')"
}

# Whether these bytes are hexadecimal text: one digit or more, 0x, and what may stand between.
is_hexadecimal() { # WORD ..
    digit='3[0-9]|4[1-6]|6[1-6]'
    printf '%s\n' "$*" | tr -s ' ' '\n' | grep -qxE "$digit" && ! printf '%s\n' "$*" | tr -s ' ' '\n' | grep -qvxE "($digit|58|78|20|2c|09|0a|0d)?"
}

# So many bytes, as text.
counted() { # N
    case $1 in 1) echo '1 byte' ;; *) echo "$1 bytes" ;; esac
}

# A refusal's number with its sentence, and where there is more about it.
sentence() { # N
    text=$(sed -n "s/^## \($1: .*\)/\1/p" "$root/docs/REFUSALS.md" 2>/dev/null)
    echo "${text:-$1} (bin/clocks --explain $1)"
}
