# For scripts that source this after their page of comments: prints that page for --help, and refuses other words with -.
# shellcheck shell=sh
case ${1-} in
--help | -h)
    sed -n '2,/^[^#]/s/^# \{0,1\}//p' "$0"
    exit 0
    ;;
-*)
    printf '%s: there is no %s; --help shows the usage\n' "$0" "$1" >&2
    exit 2
    ;;
esac
