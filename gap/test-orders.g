#############################################################################
##
##  test-orders.g: the orders of elements, against GAP's own and against what is
##  known of infinite groups. test.g reads it
##
#############################################################################

# The orders of words at random in a finite group, against those of permutations.
KbTryFiniteOrders := function( name, G, maker, count )
  local system, onto, words;
  system := maker( G );
  onto := IsomorphismPermGroup( G );
  words := List( [ 1 .. count ], n -> KbRandomWord( system, Random( [ 0 .. 30 ] ) ) );
  KbTry( Concatenation( name, ": orders" ), List( words, word -> KbOrder( system, word ) ),
         List( words, word -> Order( Image( onto, ElementOfFpGroup( FamilyObj( One( G ) ), word ) ) ) ) );
end;

# The order of each word of a list, by a system that is made once.
KbTryOrders := function( name, system, words, wanted )
  KbTry( Concatenation( name, ": orders" ), List( words, word -> KbOrder( system, word ) ), wanted );
end;

# Groups with elements of infinite order: by sums of exponents, by straight words,
# and by powers that are conjugate to straight ones.
KbTryInfiniteOrders := function()
  local F, G, a, b, least;
  F := FreeGroup( "a", "b" );
  a := F.1;
  b := F.2;
  KbTryOrders( "a free group", KbComplete( F ), [ One( F ), a, Comm( a, b ), Comm( a, b )^( a * b^2 ) ],
               [ 1, infinity, infinity, infinity ] );
  KbTryOrders( "the plane", KbComplete( F / [ Comm( a, b ) ] ), [ a * b, a * b * a^-1 * b^-1, a^2 * b^-3 ],
               [ infinity, 1, infinity ] );
  KbTryOrders( "the modular group", KbComplete( F / [ a^2, b^3 ] ),
               [ a, b, a^( b * a * b ), b^( a * b * a ), a * b, ( a * b )^( b * a * b ), Comm( a, b ), b^-1 * a * b ],
               [ 2, 3, 2, 3, infinity, infinity, infinity, 2 ] );
  G := F / [ a^2, b^3, ( a * b )^7 ];
  KbTryOrders( "the triangle group 2, 3, 7", KbAutomaticStructure( G ),
               [ G.1, G.2, G.1 * G.2, ( G.1 * G.2 )^( G.2 * G.1 * G.2 ), Comm( G.1, G.2 ), Comm( G.1, G.2 )^3,
                 Comm( G.1, G.2 )^( G.2 * G.1 * G.2 * G.1 * G.2 ), One( G ) ],
               [ 2, 3, 7, 7, infinity, infinity, infinity, 1 ] );
  KbTryOrders( "the braid group", KbAutomaticStructure( F / [ a * b * a * b^-1 * a^-1 * b^-1 ] ),
               [ a, a * b^-1, Comm( a, b ), a * b * a * b^-1 * a^-1 * b^-1 ], [ infinity, infinity, infinity, 1 ] );
  KbTryOrders( "the dihedral group", KbComplete( F / [ a^2, b^2 ] ), [ a, a * b, b * a * b, ( a * b )^3 ],
               [ 2, infinity, 2, infinity ] );
end;

# The orders of words at random in the modular group, by their matrices: where that
# isn't 1 or -1 an element is of order two for the trace 0, of order three for 1 and
# -1, and else of infinite order.
KbTryTraces := function()
  local F, system, image, known, words;
  F := FreeGroup( "a", "b" );
  image := word -> MappedWord( word, GeneratorsOfGroup( F ), [ [ [ 0, -1 ], [ 1, 0 ] ], [ [ 0, -1 ], [ 1, 1 ] ] ] );
  known := function( matrix )
    if matrix in [ matrix^0, -matrix^0 ] then
      return 1;
    fi;
    return [ 2, 3, infinity ][Minimum( AbsInt( Trace( matrix ) ), 2 ) + 1];
  end;
  system := KbComplete( F / [ F.1^2, F.2^3 ] );
  words := List( [ 1 .. 40 ], n -> KbRandomWord( system, Random( [ 0 .. 12 ] ) ) );
  KbTryOrders( "the modular group by traces", system, words, List( words, word -> known( image( word ) ) ) );
end;

# The orders of words at random in the groups of rotations of the plane about the
# corners of a triangle. A rotation by a part of the full turn is of finite order,
# and a translation that isn't the identity of infinite order.
KbTryRotations := function( turns, corners )
  local F, system, words, least;
  F := FreeGroup( "a", "b" );
  system := KbAutomaticStructure( F / [ F.1^corners[1], F.2^corners[2], ( F.1 * F.2 )^corners[3] ] );
  words := List( [ 1 .. 25 ], n -> KbRandomWord( system, Random( [ 1 .. 20 ] ) ) );
  least := KbReducedForm( system, words );
  KbTryOrders( Concatenation( "rotations about triangles ", String( corners ) ), system, words,
               List( [ 1 .. 25 ], function( n )
    local turn;
    turn := ExponentSums( words[n] ) * [ turns / corners[1], turns / corners[2] ] mod turns;
    if turn = 0 and not IsOne( least[n] ) then
      return infinity;
    fi;
    return turns / Gcd( turn, turns );
  end ) );
end;

# Orders of elements of monoids: invertible ones, straight ones, and those without.
KbTryMonoidOrders := function()
  local M, Q, F, system;
  M := FreeMonoid( "a", "b" );
  Q := M / [ [ M.1 * M.2, One( M ) ] ];
  KbTryOrders( "bicyclic", KbComplete( Q ), [ Q.1, Q.2, Q.1 * Q.2, One( Q ) ], [ infinity, infinity, 1, 1 ] );
  system := KbComplete( M / [ [ M.1^2, M.1 ], [ M.2^2, M.2 ] ] );
  KbTryOrders( "two idempotents", system, [ M.1 * M.2 * M.1, M.2 * M.1 * M.2 * M.1 ], [ fail, infinity ] );
  KbTryRefused( "an idempotent", KbOrder, [ system, M.1 ], "the word has no order: two of its powers are equal" );
  system := KbComplete( M / [ [ M.1^6, One( M ) ], [ M.2^5, M.2^2 ], [ M.2 * M.1, M.2 ], [ M.1 * M.2, M.2 ] ] );
  KbTryOrders( "a finite monoid", system, [ M.1, M.1^4, M.1^9, One( M ) ], [ 6, 3, 2, 1 ] );
  KbTryRefused( "a word that isn't invertible", KbOrder, [ system, M.2 ], "the word has no order: two of its powers are equal" );
  F := FreeGroup( "a" );
  KbTryOrders( "a large cyclic group", KbComplete( F / [ F.1^1000 ] ), [ F.1, F.1^40, F.1^999, F.1^1001 ],
               [ 1000, 25, 1000, 1000 ] );
end;

# Where neither is shown there is no answer, and the limit is what the option says.
KbTryOrderLimits := function()
  local F, G, system, row;
  F := FreeGroup( "a", "b" );
  G := F / [ F.1^150, F.2^2 ];
  system := KbComplete( G );
  KbTry( "beyond the limit", KbOrder( system, F.1, rec() ), fail );
  KbTry( "within another limit", List( [ 149, 150, 151 ], most -> KbOrder( system, G.1, rec( maxPower := most ) ) ),
         [ fail, 150, 150 ] );
  for row in [ rec( maxPower := 0 ), rec( maxPower := "2" ), rec( limit := 5 ), rec( maxPower := 5, maxRules := 5 ) ] do
    KbTryRefused( Concatenation( "orders with ", String( row ) ), KbOrder, [ system, F.1, row ],
                  "the option maxPower, a number from 1, is the only one" );
  od;
  KbTryRefused( "orders with a number", KbOrder, [ system, F.1, 5 ], "the options are one record" );
  KbTryRefused( "orders by a group", KbOrder, [ G, F.1 ], "a system of KbComplete or KbAutomaticStructure is needed\n" );
  KbTryRefused( "orders by cosets", KbOrder, [ KbCosets( G, G ), F.1 ],
                "a system of KbComplete or KbAutomaticStructure is needed\n" );
  KbTryForeign( "orders", system, given -> KbOrder( system, Flat( [ given ] )[Length( Flat( [ given ] ) )] ),
                KbForeign( F, F / [ F.1^2 ], [ F.1^2, F.2^3 ] ) );
end;

KbTryAllOrders := function()
  local F, a, b;
  F := FreeGroup( "a", "b" );
  a := F.1;
  b := F.2;
  KbTryFiniteOrders( "trivial", F / [ a, b ], KbComplete, 2 );
  KbTryFiniteOrders( "symmetric 4", F / [ a^2, b^3, ( a * b )^4 ], KbComplete, 20 );
  KbTryFiniteOrders( "symmetric 4 by multipliers", F / [ a^2, b^3, ( a * b )^4 ], KbAutomaticStructure, 10 );
  KbTryFiniteOrders( "SL(2,3)", F / [ a^3 * b^-3, a^3 * ( a * b )^-2 ], KbComplete, 20 );
  KbTryFiniteOrders( "PSL(2,7)", F / [ a^2, b^3, ( a * b )^7, ( a * b * a * b^-1 )^4 ], KbComplete, 20 );
  KbTryInfiniteOrders();
  KbTryTraces();
  KbTryRotations( 3, [ 3, 3, 3 ] );
  KbTryRotations( 4, [ 2, 4, 4 ] );
  KbTryRotations( 6, [ 2, 3, 6 ] );
  KbTryMonoidOrders();
  KbTryOrderLimits();
end;
