# A coordinate file of 1,000,000 by 1,000,000 with `n` entries at random places, of which `announced` are announced.
BEGIN {
    srand(7)
    print "%%MatrixMarket matrix coordinate integer general"
    print "1000000 1000000 " announced
    for (i = 0; i < n; i++)
        printf "%d %d %d\n", int(rand() * 1000000) + 1, int(rand() * 1000000) + 1, int(rand() * 2000001) - 1000000
}
