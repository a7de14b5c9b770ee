# A shape file: frames of 1522 octets each 123.36 us, which is the whole rate of their stream, at the times that a clock
# shows which is 100 parts in a million slow. awk -v ns=RESIDENCE_NS -v count=FRAMES -f slow_clock.awk
BEGIN {
    printf "residence %d\nstream a 100000000 12336 64 1522\n", ns
    for (frame = 0; frame < count; frame++) printf "frame %.0f a 1522\n", frame * 123347664
}
