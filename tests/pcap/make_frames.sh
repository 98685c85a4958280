#!/usr/bin/env bash
# Writes beside each sample what tshark finds in it: NAME.frames, a line for each frame that is of the feeds A (224.0.31.1), B
# (224.0.32.1) or S (224.0.31.43), all of them at port 14310, by its number.
set -eu

cd "$(dirname "$(realpath "$0")")"

rows() { tshark -n -r "$1" -o ip.defragment:FALSE -Y "$2" -T fields -E separator=' ' "${@:3}" 2>/dev/null; }

for sample in *.pcap *.pcapng; do
    {
        whole='frame.cap_len == frame.len && !(ip.flags.mf == 1) && !(ip.frag_offset > 0)'
        for feed in A:224.0.31.1 B:224.0.32.1 S:224.0.31.43; do
            letter=${feed%%:*}
            group="ip.dst == ${feed##*:}"
            port="udp.dstport == 14310"
            rows "$sample" "$group && $port && $whole && !udp.length.bad" -e frame.number -e udp.payload |
                sed -E "s/^([0-9]+) ?/\\1 datagram $letter /; s/ +$//"
            rows "$sample" "$group && $port && $whole && udp.length.bad" -e frame.number | sed "s/$/ broken $letter/"
            rows "$sample" "$group && (ip.flags.mf == 1 || ip.frag_offset > 0)" -e frame.number | sed "s/$/ fragment $letter/"
            rows "$sample" "$group && $port && frame.cap_len < frame.len" -e frame.number | sed "s/$/ cut $letter/"
        done
        rows "$sample" "frame.cap_len < frame.len && !udp.dstport" -e frame.number | sed "s/$/ cut -/"
    } | sort -n > "${sample%.*}.frames"
done
