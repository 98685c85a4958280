# to_capture.awk
# Makes capture lines of 'port payload'; a, b and s are the ports of the three feeds.
BEGIN { feed[a] = "A"; feed[b] = "B"; feed[s] = "S" }
$1 in feed && NF == 2 { gsub(/:/, "", $2); print feed[$1], $2 }
