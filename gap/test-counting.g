#############################################################################
##
##  test-counting.g: sizes and growth, against GAP's own orders and against the
##  program's counts for each length. test.g reads it
##
#############################################################################

# The first coefficients of a rational function whose denominator isn't 0 at 0.
KbCoefficients := function( series, count )
  local above, below, coefficients, at, coefficient;
  above := CoefficientsOfUnivariatePolynomial( NumeratorOfRationalFunction( series ) );
  below := CoefficientsOfUnivariatePolynomial( DenominatorOfRationalFunction( series ) );
  coefficients := [];
  for at in [ 1 .. count ] do
    coefficient := 0;
    if at <= Length( above ) then
      coefficient := above[at];
    fi;
    coefficient := coefficient - Sum( [ 2 .. Minimum( at, Length( below ) ) ],
                                      n -> below[n] * coefficients[at + 1 - n] );
    Add( coefficients, coefficient / below[1] );
  od;
  return coefficients;
end;

# The growth of a system against what the program counts for each length.
KbTryGrowth := function( name, system )
  local came;
  came := KbRun( system.folder, [ "fsacount", "--lengths", "40", "P.wa" ], "" );
  KbTry( Concatenation( name, ": growth" ), KbCoefficients( KbGrowthSeries( system ), 41 ),
         List( KbLines( came.out ), Int ) );
end;

# The size of a group, by rules and by multipliers.
KbTrySize := function( name, G, size )
  local system;
  for system in [ KbComplete( G ), KbAutomaticStructure( G ) ] do
    KbTry( Concatenation( name, ": size" ), KbSize( system ), size );
    KbTry( Concatenation( name, ": finite" ), KbIsFinite( system ), size <> infinity );
    KbTryGrowth( name, system );
    if size <> infinity then
      KbTry( Concatenation( name, ": growth in all" ), Value( KbGrowthSeries( system ), 1 ), size );
    fi;
  od;
end;

# Series that are known: of a free group, of the plane, of a surface.
KbTryKnownSeries := function()
  local z, F, S;
  z := Indeterminate( Rationals, "z" );
  F := FreeGroup( "a", "b" );
  S := FreeGroup( "a", "b", "c", "d" );
  KbTry( "growth of a free group", KbGrowthSeries( KbComplete( F ) ), ( 1 + z ) / ( 1 - 3 * z ) );
  KbTry( "growth of the plane", KbGrowthSeries( KbComplete( F / [ Comm( F.1, F.2 ) ] ) ), ( 1 + z )^2 / ( 1 - z )^2 );
  KbTry( "growth of the surface of genus two",
         KbGrowthSeries( KbAutomaticStructure( S / [ Comm( S.1, S.2 ) * Comm( S.3, S.4 ) ] ) ),
         ( 1 + 2 * z + 2 * z^2 + 2 * z^3 + z^4 ) / ( 1 - 6 * z - 6 * z^2 - 6 * z^3 + z^4 ) );
  KbTry( "growth of a group of order two", KbGrowthSeries( KbComplete( F / [ F.1, F.2^2 ] ) ),
         1 + z );
end;

# Groups whose orders GAP knows, and monoids.
KbTryAllSizes := function()
  local F, G, M, automaton;
  F := FreeGroup( "a", "b" );
  KbTrySize( "trivial", F / [ F.1, F.2 ], 1 );
  G := F / [ F.1^2, F.2^3, ( F.1 * F.2 )^4 ];
  KbTrySize( "symmetric 4", G, Size( G ) );
  G := F / [ F.1^2, F.2^3, ( F.1 * F.2 )^7, ( F.1 * F.2 * F.1 * F.2^-1 )^4 ];
  KbTrySize( "PSL(2,7)", G, Size( G ) );
  KbTrySize( "the plane", F / [ Comm( F.1, F.2 ) ], infinity );
  KbTrySize( "the modular group", F / [ F.1^2, F.2^3 ], infinity );
  KbTryGrowth( "the triangle group 2, 3, 7", KbAutomaticStructure( F / [ F.1^2, F.2^3, ( F.1 * F.2 )^7 ] ) );
  KbTryGrowth( "by weights", KbComplete( F / [ Comm( F.1, F.2 ) ], rec( weights := [ 1, 2, 3, 4 ] ) ) );
  M := FreeMonoid( "a", "b" );
  KbTry( "a free monoid: size", KbSize( KbComplete( M ) ), infinity );
  KbTryGrowth( "plactic 2", KbComplete( M / [ [ M.2 * M.1 * M.1, M.1 * M.2 * M.1 ], [ M.2 * M.2 * M.1, M.2 * M.1 * M.2 ] ] ) );
  M := M / [ [ M.1^3, M.1 ], [ M.2^2, M.1 ], [ M.1 * M.2, M.2 * M.1 ] ];
  KbTry( "a finite monoid: size", KbSize( KbComplete( M ) ), Size( M ) );
  KbTryGrowth( "a finite monoid", KbComplete( M ) );
  automaton := StructuralCopy( KbComplete( F ).wordAcceptor );
  automaton.initial := [];
  KbTry( "growth of nothing", IsZero( KbGrowthOf( automaton ) ), true );
end;

# Each counting function refuses what has no word acceptor.
KbTryForeignCounts := function()
  local F, G, row, action;
  F := FreeGroup( "a", "b" );
  G := F / [ F.1^2, F.2^3 ];
  for action in [ KbSize, KbIsFinite, KbGrowthSeries ] do
    for row in [ [ "a group", G ], [ "a record", rec( wordAcceptor := 1 ) ], [ "cosets", KbCosets( G, G ) ] ] do
      KbTryRefused( Concatenation( NameFunction( action ), " of ", row[1] ), action, [ row[2] ],
                    "a system of KbComplete or KbAutomaticStructure is needed\n" );
    od;
  od;
  KbTryRefused( "growth of no automaton", KbGrowthOf, [ G ], "an automaton is needed" );
end;

KbTryAllCounts := function()
  KbTryAllSizes();
  KbTryKnownSeries();
  KbTryForeignCounts();
end;
