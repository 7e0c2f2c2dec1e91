# Writes what a script of ovn-nbctl, ovn-sbctl and ovn-trace asks for, a call a line:
#     bash examples/bring.sh SCRIPT
# The script is run, with functions in place of these programs, so its variables and loops are as in the
# shell. A call whose output it takes, as $(ovn-nbctl create ..), is written too, and gives it nothing.
# All else in it is run as it stands: leave out what should not be, as ovs-vsctl or ip.
shopt -s extglob
call() {
    local word
    for word; do
        word=${word//+([[:space:]])/ }
        case $word in
        *\'*) printf '"%s" ' "$word" ;;
        '' | *[!A-Za-z0-9:._/,=@%+-]*) printf "'%s' " "$word" ;;
        *) printf '%s ' "$word" ;;
        esac
    done | sed 's/ $/\n/' >&3
}
ovn-nbctl() { call "$@"; }
ovn-sbctl() { call "$@"; }
ovn-trace() { call trace "$@"; }
. "$1" 3>&1 >/dev/null
