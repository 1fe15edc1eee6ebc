# The conjugacy classes of subgroups of PSL2(Z) = < a, b | a^3, b^2 > of index at most kaldvemirLargest, by GAP's own search.
#
#     gap -r -q -A --quitonbreak -c 'kaldvemirLargest := 15;;' classes.g < /dev/null
#
# prints a line a class: the index n, the number of subgroups in the class, and how a and b act on the right cosets of one of
# them, each as the list of the images of 1..n:
#
#     3 1 2,3,1 1,2,3
#
# and then the line "end". Without it the list is cut short: after a syntax error GAP ends with status 0 all the same.

if not IsBound( kaldvemirLargest ) then kaldvemirLargest := 15; fi;

kaldvemirCommas := function( permutation, n )
    return JoinStringsWithSeparator( List( ListPerm( permutation, n ), String ), "," );
end;

kaldvemirPrintClass := function( group, subgroup )
    local n, action, conjugates;
    n := Index( group, subgroup );
    action := FactorCosetAction( group, subgroup );
    conjugates := Index( group, Normalizer( group, subgroup ) );
    Print( n, " ", conjugates,
           " ", kaldvemirCommas( Image( action, group.1 ), n ),
           " ", kaldvemirCommas( Image( action, group.2 ), n ), "\n" );
end;

kaldvemirPrintClasses := function( largest )
    local free, group, subgroup;
    free := FreeGroup( "a", "b" );
    group := free / [ free.1^3, free.2^2 ];
    for subgroup in LowIndexSubgroupsFpGroup( group, largest ) do
        kaldvemirPrintClass( group, subgroup );
    od;
    Print( "end\n" );
end;

# GAP would break lines at the width of the screen.
SetPrintFormattingStatus( "*stdout*", false );
kaldvemirPrintClasses( kaldvemirLargest );
QuitGap( 0 );
