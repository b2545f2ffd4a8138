#############################################################################
##
##  test-kbmag.g: kbmag.g, the names of GAP's package kbmag. test.g reads it
##
#############################################################################

KbReadBeside( "kbmag.g" );

# How a rewriting system prints.
KbTryRws := function( name, rws, wanted )
  wanted := Concatenation( "<rewriting system of the ", wanted, ">" );
  KbTry( Concatenation( name, ": printed" ), [ KbPrinted( PrintTo, rws ), String( rws ), ViewString( rws ) ],
         [ wanted, wanted, wanted ] );
end;

# A finite group by the names of the package, as a script has them.
KbTryKbmagFinite := function()
  local F, G, R, system, least, words;
  F := FreeGroup( "a", "b" );
  G := F / [ F.1^2, F.2^3, ( F.1 * F.2 )^4 ];
  R := KBMAGRewritingSystem( G );
  KbTryRws( "before a completion", R, "group on [ a, b ] by shortlex, not completed" );
  KbTry( "confluent before", IsConfluent( R ), false );
  KbTry( "rules before", List( Rules( R ), pair -> pair[1] ), RelatorsOfFpGroup( G ) );
  KbTry( "KnuthBendix", KnuthBendix( R ), true );
  KbTryRws( "after a completion", R, "group on [ a, b ] by shortlex, 11 rules" );
  KbTry( "confluent after", IsConfluent( R ), true );
  system := KbComplete( G );
  least := KbLeastWords( system );
  KbTry( "rules after", Rules( R ), system.rules );
  KbTry( "Size", Size( R ), Size( G ) );
  KbTry( "EnumerateReducedWords", EnumerateReducedWords( R, 0, 100 ), least.words );
  KbTry( "EnumerateReducedWords of one length", EnumerateReducedWords( R, 2, 2 ),
         Filtered( least.words, word -> Length( word ) = 2 ) );
  words := List( [ 1 .. 20 ], n -> KbRandomWord( system, n ) );
  KbTry( "ReducedWord", List( words, word -> ReducedWord( R, word ) ), KbReducedForm( system, words ) );
  KbTry( "ReducedForm", ReducedForm( R, words[9] ), KbReducedForm( system, words[9] ) );
  KbTry( "IsReducedWord, IsReducedForm", [ IsReducedWord( R, F.1 * F.2 ), IsReducedWord( R, F.2^2 ),
         IsReducedForm( R, F.1 * F.2 ), IsReducedForm( R, F.2^2 ) ], [ true, false, true, false ] );
  KbTry( "Order", List( words, word -> Order( R, word ) ),
         List( words, word -> Order( Image( least.onto, ElementOfFpGroup( FamilyObj( One( G ) ), word ) ) ) ) );
  KbTry( "GrowthFSA", Value( GrowthFSA( WordAcceptor( R ) ), 1 ), Size( G ) );
  KbTry( "free structure", IsIdenticalObj( FreeStructureOfRewritingSystem( R ), F ), true );
  KbReadBeside( "kbmag.g" );
  KbTry( "the file is read again", [ Size( R ), MakeConfluent( R ) ], [ Size( G ), true ] );
  ResetRewritingSystem( R );
  KbTryRws( "after a reset", R, "group on [ a, b ] by shortlex, not completed" );
  KbTry( "made again", [ MakeConfluent( R ), Size( R ) ], [ true, Size( G ) ] );
end;

# A group without a short completion, by its automatic structure; and a monoid.
KbTryKbmagInfinite := function()
  local F, R, M;
  F := FreeGroup( "a", "b" );
  R := KBMAGRewritingSystem( F / [ F.1^2, F.2^3, ( F.1 * F.2 )^7 ] );
  SetInfoLevel( InfoRWS, 0 );
  OptionsRecordOfKBMAGRewritingSystem( R ).maxeqns := 200;
  OptionsRecordOfKBMAGRewritingSystem( R ).tidyint := 20;
  KbTry( "a limit", [ KnuthBendix( R ), IsConfluent( R ) ], [ false, false ] );
  SetInfoLevel( InfoRWS, 1 );
  KbTryRefused( "nothing is known yet", Size, [ R ], "no normal forms are known yet" );
  KbTry( "AutomaticStructure", [ AutomaticStructure( R, true, false, true ), AutomaticStructure( R ) ], [ true, true ] );
  KbTryRws( "an automatic structure", R, "group on [ a, b ] by shortlex, automatic" );
  KbTry( "infinite: Size", Size( R ), infinity );
  KbTry( "infinite: Order", List( [ F.1, F.2, F.1 * F.2, Comm( F.1, F.2 ) ], word -> Order( R, word ) ),
         [ 2, 3, 7, infinity ] );
  KbTry( "infinite: ReducedWord", ReducedWord( R, ( F.1 * F.2 )^7 ), One( F ) );
  KbTry( "infinite: IsReducedWord", IsReducedWord( R, ( F.1 * F.2 )^7 ), false );
  M := FreeMonoid( "a", "b" );
  R := KBMAGRewritingSystem( M / [ [ M.1 * M.2, One( M ) ] ] );
  KbTry( "a monoid", [ KnuthBendix( R ), Size( R ), ReducedWord( R, M.2 * M.1 * M.2 ) ], [ true, infinity, M.2 ] );
  KbTryRws( "a monoid", R, "monoid on [ a, b ] by shortlex, 1 rule" );
end;

# Orderings and options.
KbTryKbmagOptions := function()
  local F, R, row;
  F := FreeGroup( "a", "b" );
  R := KBMAGRewritingSystem( F / [ F.1^2, F.2^3, ( F.1 * F.2 )^4 ] );
  for row in [ [ "recursive", [ ], "the ordering recursive isn't there: shortlex or wtlex" ],
               [ "wreathprod", [ [ 1, 2, 3 ] ], "the ordering wreathprod isn't there" ],
               [ "wtlex", [], "wtlex needs a weight from 1 to 1000 for each of the letters [ a, b, b^-1 ]" ],
               [ "wtlex", [ [ 1, 2 ] ], "wtlex needs a weight" ], [ "wtlex", [ [ 0, 1, 1 ] ], "wtlex needs a weight" ] ] do
    KbTryRefused( Concatenation( "the ordering ", row[1] ), SetOrderingOfKBMAGRewritingSystem,
                  Concatenation( [ R, row[1] ], row[2] ), row[3] );
  od;
  KnuthBendix( R );
  SetOrderingOfKBMAGRewritingSystem( R, "wtlex", [ 5, 1, 1 ] );
  KbTryRws( "another ordering", R, "group on [ a, b ] by wtlex, not completed" );
  KbTry( "by weights", [ KnuthBendix( R ), Size( R ) ], [ true, 24 ] );
  KbTryRefused( "a structure by weights", AutomaticStructure, [ R ], "an automatic structure needs the ordering shortlex" );
  KbTryRefused( "cosets by weights", KnuthBendixOnCosets, [ R, SubgroupOfKBMAGRewritingSystem( R, [ F.2 ] ) ],
                "cosets need the ordering shortlex" );
  SetOrderingOfKBMAGRewritingSystem( R, "shortlex" );
  KbTryRefused( "a fourth argument", AutomaticStructure, [ R, true, true, true, true ], "behind the rewriting system" );
  for row in [ [ "maxeqns", "ten", "the option maxRules must be a number" ], [ "stop", 1, "there is no option stop" ],
               [ "weights", [ 1, 1, 1 ], "weights are set by SetOrderingOfKBMAGRewritingSystem" ] ] do
    R := KBMAGRewritingSystem( F );
    OptionsRecordOfKBMAGRewritingSystem( R ).( row[1] ) := row[2];
    KbTryRefused( Concatenation( "the option ", row[1] ), KnuthBendix, [ R ], row[3] );
  od;
  R := KBMAGRewritingSystem( F );
  OptionsRecordOfKBMAGRewritingSystem( R ).order := [ F.1, F.2, F.1^-1, F.2^-1 ];
  KnuthBendix( R );
  KbTry( "the option order", EnumerateReducedWords( R, 1, 1 ), [ F.1, F.2, F.1^-1, F.2^-1 ] );
end;

# Cosets, of finite and of infinite index.
KbTryKbmagCosets := function()
  local F, G, R, S, wanted;
  F := FreeGroup( "a", "b" );
  G := F / [ F.1^2, F.2^3, ( F.1 * F.2 )^4 ];
  R := KBMAGRewritingSystem( G );
  S := SubgroupOfKBMAGRewritingSystem( R, Subgroup( G, [ G.2 ] ) );
  KbTry( "a subgroup: printed", KbPrinted( PrintTo, S ), "<subgroup of the group on [ a, b ], 1 generator>" );
  KbTryRefused( "no cosets yet", Index, [ R, S ], "no cosets are known yet" );
  wanted := KbCosets( G, [ G.2 ] );
  KbTry( "KnuthBendixOnCosets", [ KnuthBendixOnCosets( R, S ), Index( R, S ) ], [ true, wanted.index ] );
  KbTry( "coset representatives", EnumerateReducedCosetRepresentatives( R, S, 0, 100 ), wanted.words );
  KbTry( "ReducedCosetRepresentative", ReducedCosetRepresentative( R, S, F.2 * F.1 ), F.1 );
  KbTry( "IsReducedCosetRepresentative", List( [ F.2 * F.1, F.1, One( F ), F.2 ],
         word -> IsReducedCosetRepresentative( R, S, word ) ), [ false, true, true, false ] );
  KbTryRefused( "lengths of coset representatives", EnumerateReducedCosetRepresentatives, [ R, S, 0, infinity ],
                "two numbers of letters, from 0, are needed" );
  R := KBMAGRewritingSystem( F / [ Comm( F.1, F.2 ) ] );
  KbTryRefused( "a subgroup for another rewriting system", KnuthBendixOnCosets, [ R, S ],
                "a subgroup of SubgroupOfKBMAGRewritingSystem for this rewriting system is needed" );
  S := SubgroupOfKBMAGRewritingSystem( R, [ F.1 ] );
  KbTry( "infinite index", [ KnuthBendixOnCosets( R, S ), Index( R, S ) ], [ true, infinity ] );
  KbTry( "representatives of infinitely many cosets", EnumerateReducedCosetRepresentatives( R, S, 1, 2 ),
         [ F.2, F.2^-1, F.2^2, F.2^-2 ] );
  SetInfoLevel( InfoRWS, 0 );
  R := KBMAGRewritingSystem( F / [ F.1 * F.2 * F.1 * F.2^-1 * F.1^-1 * F.2^-1 ] );
  OptionsRecordOfKBMAGRewritingSystem( R ).maxeqns := 100;
  KbTry( "cosets at a limit", KnuthBendixOnCosets( R, SubgroupOfKBMAGRewritingSystem( R, [ F.1 ] ) ), false );
  SetInfoLevel( InfoRWS, 1 );
end;

# Each function refuses what isn't its own.
KbTryKbmagForeign := function()
  local F, G, M, R, S, needed, row;
  F := FreeGroup( "a", "b" );
  G := F / [ F.1^2, F.2^3 ];
  M := FreeMonoid( "a", "b" );
  R := KBMAGRewritingSystem( G );
  S := SubgroupOfKBMAGRewritingSystem( R, [ F.1 ] );
  needed := "a rewriting system of KBMAGRewritingSystem is needed";
  for row in [ [ KnuthBendix, [ G ] ], [ AutomaticStructure, [ 5 ] ], [ ReducedWord, [ G, F.1 ] ],
               [ IsReducedWord, [ KbComplete( G ), F.1 ] ], [ EnumerateReducedWords, [ rec(), 0, 1 ] ],
               [ WordAcceptor, [ G ] ], [ ResetRewritingSystem, [ G ] ], [ OptionsRecordOfKBMAGRewritingSystem, [ G ] ],
               [ SetOrderingOfKBMAGRewritingSystem, [ G, "shortlex" ] ], [ SubgroupOfKBMAGRewritingSystem, [ G, [] ] ],
               [ KnuthBendixOnCosets, [ G, S ] ], [ ReducedCosetRepresentative, [ G, S, F.1 ] ] ] do
    KbTryRefused( NameFunction( row[1] ), row[1], row[2], needed );
  od;
  KbTryRefused( "no presentation", KBMAGRewritingSystem, [ Group( (1,2) ) ], "a finitely presented group or monoid is needed" );
  KbTryRefused( "a subgroup of a monoid", SubgroupOfKBMAGRewritingSystem, [ KBMAGRewritingSystem( M ), [] ],
                "a rewriting system of a group is needed" );
  KbTryRefused( "a subgroup of another group", SubgroupOfKBMAGRewritingSystem, [ R, FreeGroup( "a", "b" ) ],
                "a subgroup of the group on the generators [ a, b ] is needed, not one of another group" );
  KbTryRefused( "a structure of a monoid", AutomaticStructure, [ KBMAGRewritingSystem( M ) ], "a finitely presented group is needed" );
  KnuthBendix( R );
  for row in [ ReducedWord, IsReducedWord, Order, ReducedForm ] do
    KbTryRefused( Concatenation( NameFunction( row ), " of a word of another group" ), row, [ R, FreeGroup( "a", "b" ).1 ],
                  "a word or an element of the group on the generators [ a, b ] is needed, not one of another" );
  od;
  KbTryRefused( "growth of no automaton", GrowthFSA, [ R ], "an automaton is needed" );
end;

KbTryKbmag := function()
  KbTryKbmagFinite();
  KbTryKbmagInfinite();
  KbTryKbmagOptions();
  KbTryKbmagCosets();
  KbTryKbmagForeign();
end;
