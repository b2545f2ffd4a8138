#############################################################################
##
##  kb.g: the program kb from GAP
##
##  For GAP 4.12; no package is needed. Read it with Read( "kb.g" ). The
##  functions take a finitely presented group or monoid, write its
##  presentation for kb, run the program, and give back GAP objects.
##
##      KbComplete( G [, options] )              its reduced complete system
##      KbAutomaticStructure( G [, options] )    word acceptor and multipliers
##      KbWordAcceptor( system )                 the word acceptor, a record
##      KbReducedForm( system, words )           least words
##      KbIsReduced( system, word )              whether a word is a least one
##      KbElements( system, least, most )        least words by their length
##      KbCosets( G, H [, options] )             least words of right cosets
##      KbSize( system )                         how many elements
##      KbIsFinite( system )                     whether there are finitely many
##      KbGrowthSeries( system )                 how many of each length
##      KbOrder( system, word [, options] )      the order of an element
##      KbAutomaton( record )                    an automaton of the package automata
##      KbRead( file, names, values )            any file that kb writes
##
##  docs/gap.md says what each takes and gives back.
##
#############################################################################

# The program: a path, or a name that is looked for as a shell does.
KbProgram := "kb";
if IsBound( GAPInfo.SystemEnvironment.KB_PROGRAM ) then
  KbProgram := GAPInfo.SystemEnvironment.KB_PROGRAM;
fi;

# Reads another file of the folder in which this one is.
KbReadBeside := function( name )
  local own, slashes;
  own := INPUT_FILENAME();
  slashes := Positions( own, '/' );
  if slashes <> [] then
    name := Concatenation( own{ [ 1 .. slashes[Length( slashes )] ] }, name );
  fi;
  Read( name );
end;

KbReadBeside( "systems.g" );
KbReadBeside( "running.g" );
KbReadBeside( "presentations.g" );
KbReadBeside( "files.g" );
KbReadBeside( "cosets.g" );
KbReadBeside( "answering.g" );

# As KbComplete, with options that are checked. `answered` is given what came of the
# run, and the system: where it returns `fail`, so does this.
KbCompleteBy := function( G, options, answered )
  local system, words, read;
  system := KbSystem( G, options );
  if answered( KbRun( system.folder, Concatenation( [ "kbprog", "P" ], KbArguments( options ) ), "" ), system ) = fail then
    return fail;
  fi;
  words := FreeMonoid( system.names );
  read := KbRead( Concatenation( system.file, ".kbprog" ), system.names,
                  Concatenation( GeneratorsOfMonoid( words ), [ One( words ) ] ) );
  system.rules := List( read.equations, pair -> List( pair, word -> MappedWord( word,
    GeneratorsOfMonoid( words ), List( system.letters, letter -> letter.element ) ) ) );
  system.rules := Filtered( system.rules, pair -> not ForAll( pair, IsOne ) );
  system.wordsOfRules := read.equations;
  system.isConfluent := read.isConfluent;
  system.wordAcceptor := KbReadAutomaton( system, ".wa" );
  system.reducing := Concatenation( [ "wordreduce", "P.kbprog" ], KbWorkers( options ) );
  return KbAsSystem( system );
end;

# Completes the presentation: `rules` are the pairs of words of its reduced
# complete system, and `wordAcceptor` accepts the least words. In `rules` a word
# and its inverse cancel, so the rules that say no more than that are left out.
# Stops with an error where the program has no answer.
KbComplete := { G, given... } -> KbCompleteBy( G, KbOptions( given ), KbAnswered );

# As KbAutomaticStructure, with options that are checked, and `answered` as above.
KbStructureBy := function( G, options, answered )
  local system;
  system := KbGroupSystem( G, options );
  system.reducing := Concatenation( [ "autgroup", "P" ], KbArguments( options ) );
  if answered( KbRun( system.folder, system.reducing, "" ), system ) = fail then
    return fail;
  fi;
  system.wordAcceptor := KbReadAutomaton( system, ".wa" );
  system.multipliers := List( [ 1 .. Length( system.names ) ],
                              at -> KbReadAutomaton( system, Concatenation( ".m", String( at ) ) ) );
  return KbAsSystem( system );
end;

# Makes the automatic structure by shortlex: `wordAcceptor`, and `multipliers`
# with one for each letter of `names`. Stops with an error where the program has no
# answer.
KbAutomaticStructure := { G, given... } -> KbStructureBy( G, KbOptions( given ), KbAnswered );

# The word acceptor of a system, or of a group or monoid that is completed.
KbWordAcceptor := function( G, given... )
  if IsRecord( G ) or IsKbSystem( G ) then
    KbNeedAcceptor( G );
    return G.wordAcceptor;
  fi;
  return CallFuncList( KbComplete, Concatenation( [ G ], given ) ).wordAcceptor;
end;

# The least words of words of the free group or monoid below.
KbLeast := function( system, words )
  local lines;
  lines := List( words, word -> Concatenation( system.marker, KbWord( system, word ) ) );
  return List( KbAnswers( system, lines ), line -> KbElement( system, KbUnmarked( system, line ) ) );
end;

# A word of the free group or monoid as what was given: an element of the
# presented one for an element of that.
KbAsGiven := function( system, word, given )
  if not KbIsElement( given ) then
    return word;
  elif system.isGroup then
    return ElementOfFpGroup( FamilyObj( given ), word );
  fi;
  return ElementOfFpMonoid( FamilyObj( given ), word );
end;

# The least words of one word or of a list of words. Elements of the presented
# group or monoid give elements, and words of the free one give words.
KbReducedForm := function( system, words )
  local single, forms;
  KbNeedSystem( system, [ "reducing" ], "KbComplete, KbAutomaticStructure or KbCosets" );
  single := not IsList( words ) or IsAssocWord( words );
  if single then
    words := [ words ];
  elif not IsDenseList( words ) then
    ErrorNoReturn( "kb: a list without holes is needed" );
  fi;
  forms := KbLeast( system, List( words, word -> KbFreeWord( system, word ) ) );
  forms := List( [ 1 .. Length( words ) ], at -> KbAsGiven( system, forms[at], words[at] ) );
  if single then
    return forms[1];
  fi;
  return forms;
end;

# Whether a word is a least one, as KbReducedForm gives them: whether it is written
# by the letters, without the inverse of one that is its own, and the word acceptor
# that is stored accepts it. Stops with an error where the system has none, or the
# word isn't its own.
KbIsReduced := function( system, word )
  local rows, state, places, place;
  KbNeedAcceptor( system );
  word := KbFreeWord( system, word );
  places := KbPlaces( system, word );
  rows := KbDenseRows( system.wordAcceptor );
  state := Concatenation( system.wordAcceptor.initial, [ 0 ] )[1];
  for place in places do
    if state <> 0 then
      state := rows[state][place];
    fi;
  od;
  return state in system.wordAcceptor.accepting and
         word = Product( system.letters{ places }, letter -> letter.element, One( system.free ) );
end;

# The least words of length `least` to `most`, in the shortlex order.
KbElements := function( system, least, most )
  local came;
  KbNeedAcceptor( system );
  if not ForAll( [ least, most ], KbIsNumber ) then
    ErrorNoReturn( "kb: two numbers of letters, from 0, are needed" );
  fi;
  came := KbAnswered( KbRun( system.folder, [ "fsaenumerate", String( least ), String( most ), "P.wa" ], "" ),
                      system );
  return List( KbLines( came.out ), line -> KbElement( system, line ) );
end;

# What goes by these functions.
KbReadBeside( "counting.g" );
KbReadBeside( "families.g" );
KbReadBeside( "orders.g" );
