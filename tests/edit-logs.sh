#!/bin/sh
# Reads what rt said of the must-fail edits: tests/edit-logs.sh SAID [NAMES], where SAID is a file and NAMES are crates, all if there is none.
# Each edit was tried, and refused first at a fact that holds no longer. One that only takes away a name that a proof uses, or at which rt
# gives up before it can tell, is refused whatever it means, and shuts nothing out.
set -eu
cd "$(dirname "$0")/.."
said=$1
shift
refused=0
worthless=0
for crate in ${*:-$(sh tests/order.sh)}; do
    for edit in crates/"$crate"/must-fail/*.edit; do
        [ -f "$edit" ] || continue
        name=$crate/$(basename "$edit")
        line=$(grep -m 1 -F "must-fail $name: " "$said" || true)
        case $line in
        '') why='was not tried' ;;
        *': refused, as it must be (only because a proof file names '*) why='refused for its shape: its proof names what the edited code has not' ;;
        *': refused, as it must be (only by a limit '*) why='refused for a limit, and not at a fact' ;;
        *': refused, as it must be: '*'gave up at one of its limits'*) why='refused where a search gave up, and not at a fact' ;;
        *': refused, as it must be: '*) why= ;;
        *': refused, as it must be'*) why='refused with no error' ;;
        *) why='no refusal' ;;
        esac
        if [ -z "$why" ]; then
            refused=$((refused + 1))
        else
            echo "edit logs: $name: $why"
            [ -z "$line" ] || echo "    $line"
            worthless=$((worthless + 1))
        fi
    done
done
[ "$worthless" -eq 0 ] || exit 1
echo "edit logs: $refused refused at a fact"
