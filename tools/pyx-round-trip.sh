#!/bin/sh
# Reads the PYX that `xmlstarlet pyx` makes of XML files and writes it again, with the built program ncq; then reads what
# was written. Both readings have to give the same element.
# The files go through `xmlstarlet c14n` first, which writes CDATA sections and entities as texts: their lines are no PYX
# that ncq reads.
#
# usage: tools/pyx-round-trip.sh NCQ FILE.xml..
# Ends with 0 where each file comes round or the tool is missing, with 1 where one does not, with 2 for wrong words.
set -u

if [ $# -lt 2 ]; then
    echo "usage: $0 NCQ FILE.xml.." >&2
    exit 2
fi
ncq=$1
shift
if ! command -v xmlstarlet > /dev/null; then
    echo "skipped: xmlstarlet is not installed"
    exit 0
fi
folder=$(mktemp -d) || exit 1
trap 'rm -rf "$folder"' EXIT

# The output of ncq where the lines of the file $1 are put as one element.
told() {
    {
        printf '%s\n' 'source documents root Documents key @file' \
            'create w WHERE <Documents><Document><Kind>xml</></> ELEMENT_AS $g</> IN "documents" CONSTRUCT $g DO print' \
            '.' 'delta documents'
        cat "$1"
        printf '.\n'
    } | "$ncq" run
}

failed=0
for file in "$@"; do
    if ! xmlstarlet c14n "$file" > "$folder/plain" || ! xmlstarlet pyx "$folder/plain" > "$folder/lines"; then
        echo "$file: xmlstarlet does not read it" >&2
        failed=1
        continue
    fi
    {
        printf '%s\n' '(Document' 'Afile 1' '(Kind' '-xml' ')Kind'
        cat "$folder/lines"
        echo ')Document'
    } > "$folder/first"
    told "$folder/first" > "$folder/told"
    # The element stands between the lines `gain 1` and `end`.
    sed '1,/^gain 1$/d' "$folder/told" | sed '$d' > "$folder/second"
    told "$folder/second" > "$folder/again"
    if grep -q '^gain 1$' "$folder/told" && cmp -s "$folder/told" "$folder/again"; then
        echo "$file: $(wc -l < "$folder/second") lines, the same again"
    else
        echo "$file: not the same again" >&2
        sed -n '3p' "$folder/told" >&2
        failed=1
    fi
done
exit $failed
