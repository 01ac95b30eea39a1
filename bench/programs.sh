# Sourced by the scripts beside it, with `top` set: which programs they run. ZUKONAWI_PROGRAMS names a folder that has `tspc`,
# `tspverify` and, for what draws, `tspview`; else they are those that the gate left, else those of ./build, which builds them where there are none.
#
#   programs          sets `solver` and `verifier`
#   viewing_program   sets `viewer`
# prints where a program is
program_at() {
    if [ -n "${ZUKONAWI_PROGRAMS:-}" ]; then
        echo "$(cd "$ZUKONAWI_PROGRAMS" && pwd)/$1"
    elif [ -x "$top/crates/$1/out/$1" ]; then
        echo "$top/crates/$1/out/$1"
    else
        [ -x "$top/bin/$1" ] || "$top/build" "$1" >&2 || return 1
        echo "$top/bin/$1"
    fi
}
programs() {
    solver=$(program_at tspc) && verifier=$(program_at tspverify) || return 1
    [ -x "$solver" ] && [ -x "$verifier" ] || { echo "$0: no programs at $solver and $verifier" >&2; return 1; }
}
viewing_program() {
    viewer=$(program_at tspview) || return 1
    [ -x "$viewer" ] || { echo "$0: no program at $viewer" >&2; return 1; }
}
