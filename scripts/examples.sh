#!/bin/sh
# Replays each capture of examples/, audits each history with the program that the first argument names, and explains those that
# have an explanation; compares what it prints with the text beside it: NAME.replay, NAME.verdict, NAME.explained. Loads the
# capture that is for loads, and audits its history. Compares examples/ with the copy that gn_examples has, too. Ends with status 1
# where one differs. With --copy in place of a program it makes that copy anew, and does no more.
case ${1-} in -h | --help) sed -n '2,/^[^#]/s/^# //p' "$0"; exit ;; esac
gn=${1:?the path of gn, or --copy}
failed=0
# the gate runs a program over a copy of its own, and takes no links
if [ "$gn" = --copy ]; then
	find crates/gn_examples/data -maxdepth 1 -type f -delete
	rm -f crates/gn_examples/data/conformance/*
	find examples -maxdepth 1 -type f ! -name '*.pcap' ! -name '*.service' -exec cp -t crates/gn_examples/data {} +
	find examples/conformance -type f ! -name README.md -exec cp -t crates/gn_examples/data/conformance {} +
	exit
fi
if ! diff -r -x '*.pcap' -x '*.service' -x cases -x README.md examples crates/gn_examples/data >&2; then
	echo 'examples/ and crates/gn_examples/data differ: scripts/examples.sh --copy' >&2
	failed=1
fi
for wanted in examples/*.replay examples/*.verdict examples/*.explained; do
	case $wanted in
	*.replay) command=replay; input=${wanted%.replay}.capture ;;
	*.verdict) command=audit; input=${wanted%.verdict}.history ;;
	*) command='audit --explain'; input=${wanted%.explained}.history ;;
	esac
	# shellcheck disable=SC2086 # the command is words
	if "$gn" $command < "$input" | cmp -s - "$wanted"; then
		echo "$input: as in $wanted"
	else
		echo "$input: not as in $wanted" >&2
		failed=1
	fi
done
# two loads may print different histories, so that there is no text beside this one
capture=examples/six_links.capture
if "$gn" load --workers 4 < "$capture" | "$gn" audit | grep -q '^legal '; then
	echo "$capture: loaded, its history is legal"
else
	echo "$capture: loaded, its history isn't legal" >&2
	failed=1
fi
exit $failed
