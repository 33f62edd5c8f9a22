# What the scripts of tools/, tests/, bench/ and .ci/ share. A script sets `top`, the repository, and `self`, its own
# path in there, which is its name in what it says, and reads this file.
unset CDPATH # else `cd` prints

say() { printf '%s: %s\n' "$self" "$*" >&2; }

die() { # STATUS WORDS..
    status=$1
    shift
    say "$*"
    exit "$status"
}

# A wrong call: what is wrong with it, if it is more than a question, and the right one.
wrong_call() { # USAGE [WORDS..]
    usage=$1
    shift
    die 2 "${*:+$*; }usage: $usage"
}

# Whether a word is a whole number above 0, of a size that sh counts with.
is_number() { # WORD
    case $1 in "" | 0* | *[!0-9]* | ???????????????????*) return 1 ;; esac
}

# Finds the kit: `home`, and of it `kit`, the toolchain, which is for x86-64 Linux.
need_kit() { # STATUS, to end with where there is none
    rt=$(command -v rt) || die "$1" "the Rattle kit is missing: its command 'rt' is not on the PATH"
    while [ -L "$rt" ]; do
        link=$(readlink "$rt")
        case $link in /*) rt=$link ;; *) rt=$(dirname "$rt")/$link ;; esac
    done
    home=${RATTLE_HOME:-$(cd "$(dirname "$rt")/.." && pwd -P)}
    kit=$home/toolchain
    [ -d "$kit" ] || die "$1" "the Rattle kit at hand has no toolchain"
}

# Whether a file was built from the sources as they are: none has changed since tools/build noted that it began. The
# time of the change is asked, and not that of the content, which `cp -p` and `tar -x` bring along.
current() { # FILE NAME
    [ -f "$1" ] && [ -f "$top/target/run/$2" ] &&
        [ -z "$(find "$top"/crates/*/src "$top"/crates/*/specs "$top"/crates/*/proofs "$top/crates.txt" \
            -cnewer "$top/target/run/$2" -print 2>/dev/null | head -n 1)" ]
}

# Makes the folder `work` for scratch files, in TMPDIR where that is set: on the disk, since a check may lay out some
# gigabytes, and needs the memory itself.
make_work() {
    place=${TMPDIR:-/tmp}
    case $place in /*) ;; *) place=$(pwd)/$place ;; esac
    work=$(mktemp -d "$place/timing-060.XXXXXX") || die 1 "no scratch folder can be made in $place"
    # programs that a check runs as nobody must reach their folder
    mkdir "$work/tmp" && chmod 711 "$work" "$work/tmp" && mkfifo "$work/alive" || {
        rm -rf "$work"
        die 1 "the scratch folder cannot be used"
    }
}

# Copies crates/ and crates.txt into a folder, with the libraries that were proved and built, and without what checks
# keep of their work: rt finds that again by its content.
copy_crates() { # FOLDER
    mkdir -p "$1" && cp "$top/crates.txt" "$1/" &&
        (cd "$top" && tar -cf - --exclude='crates/*/out/incremental' crates) | (cd "$1" && tar -xf -)
}

# Ends a job with all that it started, and removes its scratch folder, which has all that these leave.
end_job() {
    if [ -n "$job" ]; then
        kill -s KILL -- "-$job" 2>/dev/null || kill -s KILL "$job" 2>/dev/null
        wait "$job" 2>/dev/null
        tries=50 # one that is still ending may write, and holds the lock
        while [ "$tries" -gt 0 ] && kill -s 0 -- "-$job" 2>/dev/null; do sleep 0.1 && tries=$((tries - 1)); done
    fi
    [ -z "$work" ] || rm -rf "$work" 2>/dev/null || { sleep 1 && rm -rf "$work"; } # what rt started ends just after it
}

end_warden() {
    [ -z "$warden" ] || {
        kill -s KILL "$warden" 2>/dev/null
        wait "$warden" 2>/dev/null
    }
}

interrupted() { # STATUS
    trap '' INT TERM HUP
    exec 8<&-
    [ -z "$warden" ] || wait "$warden" # it ends a job whose number is not known here yet
    end_job
    exit "$1"
}

# Runs a command that uses target/ or an out/, alone among all scripts of this repository, with scratch files in a
# folder of its own. Ended by INT, TERM or HUP, it leaves nothing behind. The lock is the kernel's, on the open
# repository folder: whoever holds it and dies has let go of it. Killed outright, this script leaves a job; a warden, in
# a session of its own, has read the job's number from the pipe `alive`, hears the end of the pipe, whose other end only
# this script holds, and ends the job.
guarded() { # COMMAND..
    if [ "${TIMING_060_HELD:-}" = "$top" ]; then # by a script that called this one
        "$@"
        return
    fi
    for tool in flock setsid mkfifo; do
        command -v "$tool" >/dev/null 2>&1 || die 1 "the command '$tool' is missing (Debian: util-linux, coreutils)"
    done
    exec 9<"$top" || die 1 "$top cannot be read"
    flock -n 9 2>/dev/null
    case $? in
    0) ;;
    1)
        say "waits for another run in this folder to end"
        flock 9 || die 1 "the lock on $top cannot be taken"
        ;;
    *) say "this file system has no locks: see that no other run is started in this folder" ;;
    esac
    work='' job='' warden=''
    trap 'interrupted 130' INT
    trap 'interrupted 143' TERM HUP
    make_work
    exec 8<>"$work/alive" 7<"$work/alive"
    # shellcheck disable=SC2016
    setsid sh -c '. "$1"; work=$2 job=; read -r job; read -r _; end_job' \
        warden "$top/tools/common.sh" "$work" <&7 >/dev/null 2>&1 7<&- 8<&- 9<&- &
    warden=$!
    exec 7<&-
    # shellcheck disable=SC2016
    TIMING_060_HELD=$top TMPDIR=$work/tmp setsid sh -c 'echo "$$" >&8; exec 8<&-; exec "$@"' job "$@" </dev/null &
    job=$!
    wait "$job"
    status=$?
    end_warden
    end_job
    exec 8<&- 9<&-
    trap - INT TERM HUP
    return "$status"
}

# A test or a measurement: all of it runs guarded, by calling itself. To be called once its options are looked at.
alone() { # ARGUMENTS..
    [ "${TIMING_060_HELD:-}" != "$top" ] || return 0
    guarded "$top/$self" "$@"
    exit "$?"
}

# Runs a command, and says every five seconds that it goes on.
going() { # WORDS COMMAND..
    what=$1
    shift
    began=$(date +%s)
    (
        while sleep 5; do say "$what, $(($(date +%s) - began)) s"; done
    ) </dev/null >/dev/null &
    ticker=$!
    "$@"
    status=$?
    kill "$ticker" 2>/dev/null
    return "$status"
}

# Runs a compiler: what it says goes to a log, and is shown where it fails.
compiles() { # WORDS LOG COMMAND..
    words=$1 log=$2
    shift 2
    going "compiles $words" logged "$@" || {
        cat "$log" >&2
        die 1 "$words did not compile"
    }
}
logged() { "$@" >"$log" 2>&1; }
