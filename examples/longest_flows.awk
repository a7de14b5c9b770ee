# Each port with the octets of the longest flow that crosses it, or 0, from what `ats show NET` and `ats settings NET`
# print, one behind the other. A port that is the whole route of a flow is left out: no setting tells of it.
BEGIN { FS = "[ ,]" }
$1 == "port" { longest[$3] += 0 }
$1 == "flow" && NF == 4 { untold[$4] = 1 }
/,/ && $3 == "0" { for (at = 2; at <= 9; at += 7) if ($7 > longest[$at]) longest[$at] = $7 }
END { for (port in longest) if (!(port in untold)) print port "," longest[port] | "LC_ALL=C sort" }
