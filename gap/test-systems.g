#############################################################################
##
##  test-systems.g: how systems print, and that they answer by what is stored.
##  test.g reads it
##
#############################################################################

# How a thing prints, without the breaks of long lines.
KbPrinted := function( print, thing )
  local printed, stream;
  printed := "";
  stream := OutputTextString( printed, true );
  SetPrintFormattingStatus( stream, false );
  CallFuncList( print, [ stream, thing ] );
  CloseStream( stream );
  return printed;
end;

# A system prints as one line, however it is printed.
KbTryLine := function( name, system, wanted )
  KbTry( Concatenation( name, ": printed" ), KbPrinted( PrintTo, system ), wanted );
  KbTry( Concatenation( name, ": as a string" ), String( system ), wanted );
  KbTry( Concatenation( name, ": viewed" ), ViewString( system ), wanted );
end;

KbTryLines := function()
  local F, G, M, system;
  F := FreeGroup( "a", "b" );
  G := F / [ F.1^2, F.2^3, ( F.1 * F.2 )^4 ];
  system := KbComplete( G );
  KbTryLine( "a complete system", system, "<kb: complete system of the group on [ a, b ], 11 rules>" );
  KbTryLine( "an automatic structure", KbAutomaticStructure( G ),
             "<kb: automatic structure of the group on [ a, b ], 10 states>" );
  KbTryLine( "cosets", KbCosets( G, [ G.2 ] ), "<kb: 8 right cosets in the group on [ a, b ]>" );
  M := FreeMonoid( "a", "b" );
  KbTryLine( "a monoid", KbComplete( M / [ [ M.1^2, M.1 ] ] ),
             "<kb: complete system of the monoid on [ a, b ], 1 rule>" );
  KbTryLine( "many generators", KbComplete( FreeMonoid( 20 ) ), "<kb: complete system of the monoid on 20 generators, 0 rules>" );
  KbReadBeside( "kb.g" );
  KbTry( "the files are read again", KbElements( system, 0, 0 ), [ One( F ) ] );
  KbTry( "a field that is there", [ IsBound( system.rules ), IsBound( system.multipliers ) ], [ true, false ] );
  KbTryRefused( "a field that isn't there", given -> given.multipliers, [ system ], "the system has no field multipliers" );
end;

# Without its presentation a system answers as before, by what is stored.
KbTryStored := function( name, system, word, wanted )
  RemoveFile( system.file );
  KbTry( Concatenation( name, ": answers by the stored rules" ), KbReducedForm( system, word ), wanted );
end;

KbTryAllStored := function()
  local F, G, cosets;
  F := FreeGroup( "a", "b" );
  G := F / [ F.1^2, F.2^3, ( F.1 * F.2 )^4 ];
  KbTryStored( "a complete system", KbComplete( G ), F.1 * F.2^5 * F.1, F.1 * F.2^-1 * F.1 );
  KbTryStored( "a complete system by one thread", KbComplete( G, rec( workers := 1 ) ), F.2^5, F.2^-1 );
  cosets := KbCosets( G, [ F.2 ], rec( workers := 1 ) );
  RemoveFile( Concatenation( cosets.file, ".sub" ) );
  KbTryStored( "cosets", cosets, [ F.2 * F.1, F.2^4, One( F ) ], [ F.1, One( F ), One( F ) ] );
end;

# The program that answers the words of a system stays, and is started again where
# it ended, where it may still have an answer, and where too many run.
KbTryAnswering := function()
  local F, systems, system;
  F := FreeGroup( "a", "b" );
  system := KbAutomaticStructure( F / [ F.1^2, F.2^3, ( F.1 * F.2 )^4 ] );
  KbTry( "the first answer", KbReducedForm( system, F.2^4 ), F.2 );
  RemoveFile( system.file );
  KbTry( "answers without a second structure", KbReducedForm( system, [ F.2^5, One( F ) ] ), [ F.2^-1, One( F ) ] );
  KbStop( system );
  KbTryRefused( "a program that can't be started again", KbReducedForm, [ system, F.2 ], "refused: kb: P: E3 Missing" );
  system := KbAutomaticStructure( F / [ F.1 * F.2 * F.1 * F.2^-1 * F.1^-1 * F.2^-1 ] );
  KbTryRefused( "a word that is too long", KbReducedForm, [ system, [ F.1, F.2^70000 ] ], "refused: kb: line 2: E13 WordTooLong" );
  KbTry( "an answer after that", KbReducedForm( system, F.2 * F.1 * F.2 ), F.1 * F.2 * F.1 );
  WriteLine( system!.stream, "a*a" );
  system!.asked := true;
  KbTry( "an answer that waits isn't taken for another", KbReducedForm( system, F.2 ), F.2 );
  KbStop( system );
  system!.reducing := Concatenation( system.reducing, [ "--max-rules", "3" ] );
  KbTryRefused( "a limit when it is made again", KbReducedForm, [ system, F.2 ], "undecided: the limit of lines" );
  systems := List( [ 2 .. 12 ], n -> KbComplete( F / [ F.1^n, F.2 ] ) );
  KbTry( "more systems than programs", List( Concatenation( systems, systems ), s -> KbReducedForm( s, F.1^25 ) ),
         List( Concatenation( [ 2 .. 12 ], [ 2 .. 12 ] ), n -> KbReducedForm( systems[n - 1], F.1^( 25 mod n ) ) ) );
  KbTry( "so many programs run", Length( KbAnswering ), KbMostAnswering );
end;

# Whether words are least, against their least words.
KbTryReduced := function( name, system )
  local words, least;
  words := List( [ 1 .. 50 ], n -> KbRandomWord( system, Random( [ 0 .. 4 ] ) ) );
  least := KbReducedForm( system, words );
  KbTry( Concatenation( name, ": whether words are least" ), List( words, word -> KbIsReduced( system, word ) ),
         List( [ 1 .. 50 ], n -> least[n] = words[n] ) );
end;

KbTryAllReduced := function()
  local F, G, M, system;
  F := FreeGroup( "a", "b" );
  G := F / [ F.1^2, F.2^3, ( F.1 * F.2 )^4 ];
  system := KbComplete( G );
  KbTryReduced( "symmetric 4", system );
  KbTryReduced( "the plane by multipliers", KbAutomaticStructure( F / [ Comm( F.1, F.2 ) ] ) );
  M := FreeMonoid( "a", "b" );
  KbTryReduced( "bicyclic", KbComplete( M / [ [ M.1 * M.2, One( M ) ] ] ) );
  KbTry( "whether elements are least", List( [ G.1, G.1^-1, G.2^2, One( G ) ], g -> KbIsReduced( system, g ) ),
         [ true, false, false, true ] );
  KbTryRefused( "whether words are least by cosets", KbIsReduced, [ KbCosets( G, G ), F.1 ],
                "a system of KbComplete or KbAutomaticStructure is needed\n" );
  KbTryForeign( "whether it is least", system, given -> KbIsReduced( system, Flat( [ given ] )[Length( Flat( [ given ] ) )] ),
                KbForeign( F, G, [ F.1^2, F.2^3, ( F.1 * F.2 )^4 ] ) );
end;

KbTryAllSystems := function()
  KbTryAnswering();
  KbTryAllReduced();
  KbTryLines();
  KbTryAllStored();
end;
