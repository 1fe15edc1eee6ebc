# Asks GAP of pairs of diagrams whether some permutation of 1..n carries the one to the other: s0 to s0 and s1 to s1 at once.
#
#     gap -r -q -A --quitonbreak -c 'kaldvemirFile := "pairs.g";;' matched.g < /dev/null
#
# The file has the pairs as lists of images, an index n and a number for each:
#
#     kaldvemirPairs := [ [ 3, 1, [2,3,1], [1,2,3], [2,3,1], [1,2,3] ], ... ];
#
# It prints a line a pair, "3 1 conjugate" or "3 1 different", and then the line "end". The status is 0, or 2 where some pair is
# different.

Read( kaldvemirFile );

kaldvemirConjugate := function( n, first, second )
    local x;
    x := RepresentativeAction( SymmetricGroup( n ), first, second, OnTuples );
    if x = fail then return false; fi;
    # What the search hands back is tried: a permutation of 1..n that carries each to each.
    if LargestMovedPoint( x ) > n or List( first, s -> s^x ) <> second then Error( "RepresentativeAction handed back ", x ); fi;
    return true;
end;

# PermList says fail of a list that is no permutation, and drops points that are fixed at the end: so the length is tested too.
kaldvemirDiagram := function( n, lists )
    local permutations;
    permutations := List( lists, PermList );
    if fail in permutations or ForAny( lists, l -> Length( l ) <> n ) then Error( "no permutations of 1..", n, ": ", lists ); fi;
    return permutations;
end;

kaldvemirPrintPairs := function( pairs )
    local pair, n, conjugate, status;
    status := 0;
    for pair in pairs do
        n := pair[1];
        conjugate := kaldvemirConjugate( n, kaldvemirDiagram( n, pair{ [ 3, 4 ] } ), kaldvemirDiagram( n, pair{ [ 5, 6 ] } ) );
        if conjugate then
            Print( n, " ", pair[2], " conjugate\n" );
        else
            Print( n, " ", pair[2], " different\n" );
            status := 2;
        fi;
    od;
    Print( "end\n" );
    return status;
end;

QuitGap( kaldvemirPrintPairs( kaldvemirPairs ) );
