# Reads a table of rooted diagrams of one size that `rows --format gap` wrote, and recomputes its rows with GAP's functions.
#
#     gap -r -q -A --quitonbreak -c 'kaldvemirFile := "rows.g";;' read_rows.g < /dev/null
#
# prints "120 rows agree" and ends with status 0, or the first disagreement and ends with status 2. The file has
#
#     kaldvemirRows := [
#     rec( position := 1, word := "TWWW", s0 := PermList([2,3,1]), s1 := PermList([1,2,3]), e2 := 3, e3 := 0, c := 1, t := 0,
#          level := 3, kept := true ),
#     ...
#     ];
#
# The word and the keep mark are not recomputed: they are the table's own coding, of which GAP has no function.

Read( kaldvemirFile );

# A permutation does not know its n. The rows are of one size and transitive, so where n is more than 1 some row moves n.
kaldvemirSizeOf := function( rows )
    local permutations;
    permutations := Filtered( Concatenation( List( rows, row -> [ row.s0, row.s1 ] ) ), IsPerm );
    return Maximum( 1, LargestMovedPoint( permutations ) );
end;

kaldvemirInvariants := function( n, s0, s1 )
    local own, turn;
    # GAP acts from the right: i^turn is s0(s1(i)).
    turn := s1 * s0;
    own := rec( e2 := n - NrMovedPoints( s1 ), e3 := n - NrMovedPoints( s0 ),
                c := Length( Cycles( turn, [ 1 .. n ] ) ), level := Order( turn ) );
    own.t := 12 + n - 3 * own.e2 - 4 * own.e3 - 6 * own.c;
    return own;
end;

# What is wrong with a row, in words; empty where nothing is.
kaldvemirWrong := function( n, row, position )
    local own, name;
    if row.position <> position then return Concatenation( "the row says position ", String( row.position ) ); fi;
    if not IsPerm( row.s0 ) or not IsPerm( row.s1 ) then return "s0 or s1 is no permutation"; fi;
    if not IsOne( row.s0^3 ) or not IsOne( row.s1^2 ) then return "the order of s0 or s1 does not divide 3 or 2"; fi;
    if not IsTransitive( Group( row.s0, row.s1 ), [ 1 .. n ] ) then return "not transitive"; fi;
    # GAP's third boolean, fail, is no keep mark: so the two are named.
    if not IsString( row.word ) or not row.kept in [ true, false ] then return "the word or the keep mark is of another kind"; fi;
    own := kaldvemirInvariants( n, row.s0, row.s1 );
    for name in [ "e2", "e3", "c", "t", "level" ] do
        if row.( name ) <> own.( name ) then
            return Concatenation( name, " is ", String( row.( name ) ), ", by GAP ", String( own.( name ) ) );
        fi;
    od;
    return "";
end;

kaldvemirCompareRows := function( rows )
    local n, k, position, wrong;
    n := kaldvemirSizeOf( rows );
    for k in [ 1 .. Length( rows ) ] do
        # A part of a table begins later than at 1, and goes on without gaps.
        position := rows[1].position + k - 1;
        wrong := kaldvemirWrong( n, rows[k], position );
        if wrong <> "" then
            Print( "position ", position, ": ", wrong, "\n" );
            return 2;
        fi;
    od;
    Print( Length( rows ), " rows agree\n" );
    return 0;
end;

# GAP would break lines at the width of the screen.
SetPrintFormattingStatus( "*stdout*", false );
QuitGap( kaldvemirCompareRows( kaldvemirRows ) );
