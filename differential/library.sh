# library.sh: for run.sh, soak.sh, bench.sh and stack.sh to take in, with `here` the folder of this file. Builds the comparison with the
# groups of exports that libruns.a and libhost.a have, in the folder that RUNS_LIB_DIR names, else in target/staticlib; groups are found
# by name.
# Where cargo or the source text isn't at hand, one line says so, and the script that took this in ends with exit status 0.
RUNS_LIB_DIR=${RUNS_LIB_DIR:-$here/../target/staticlib}
export RUNS_LIB_DIR

# The names of exports in a library's tables of symbols, which end each name with a zero byte; other bytes may stand right before it.
exports() { # LIBRARY PREFIX
    [ ! -f "$RUNS_LIB_DIR/$1" ] || tr '\000' '\n' < "$RUNS_LIB_DIR/$1" | LC_ALL=C sed -n "s/^.*\($2_[a-z_]*\)\$/\1/p" | sort -u
}
names="$(exports libruns.a runs) $(exports libhost.a lc3)"
features=
group() { # GROUP NAMES..: a group that the libraries have whole
    whole=$1
    shift
    for name in "$@"; do
        echo "$names" | grep -qw "$name" || return 0
    done
    features=$features${features:+,}$whole
}
group queries runs_check runs_count_lines runs_raw_line_span runs_line_span runs_get_pos_pair runs_get runs_find
group binary runs_binary_length runs_binary_read runs_binary_write
group text runs_text_length runs_text_read runs_text_write
group fair runs_is_fair
group white_space runs_is_white_space
group tariff runs_tariff
group host lc3_binary_length lc3_text_length lc3_get_pos_pair
if [ -z "$features" ] && [ -f "$RUNS_LIB_DIR/libruns.a" ]; then
    echo "$RUNS_LIB_DIR/libruns.a has no whole group of exports" >&2
    exit 1
fi

status=0
why=$("$here/build.sh" --features "$features") || status=$?
case $status in
    0) ;;
    3) echo "differential runs skipped: $why"; exit 0 ;;
    *) exit 1 ;;
esac
