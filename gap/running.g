#############################################################################
##
##  running.g: how kb.g runs the program, and what it says where there is no
##  answer
##
#############################################################################

KbShell := function()
  return Filename( DirectoriesSystemPrograms(), "sh" );
end;

# The program by an absolute path, since it is run in other folders. A bare name
# stays as it is: the shell looks for it.
KbAbsolute := function( program )
  local place, here;
  if not IsString( program ) then
    ErrorNoReturn( "kb: KbProgram must be a path or a name, a string" );
  fi;
  program := UserHomeExpand( program );
  if not '/' in program or program[1] = '/' then
    return program;
  fi;
  place := Filename( DirectoryTemporary(), "here" );
  Process( DirectoryCurrent(), KbShell(), InputTextNone(), OutputTextNone(), [ "-c", "pwd >\"$0\"", place ] );
  here := StringFile( place );
  return Concatenation( here{ [ 1 .. Length( here ) - 1 ] }, "/", program );
end;

# Runs kb in a folder with these arguments and this input. What it writes to
# standard output and standard error comes back as strings, with its status. At
# the first run KbProgram becomes absolute, so that it stays the same program.
KbRun := function( folder, arguments, input )
  local command, place, status, content;
  KbProgram := KbAbsolute( KbProgram );
  place := name -> Filename( folder, name );
  FileString( place( "input" ), input );
  command := "exec \"$0\" \"$@\" <input >output 2>messages";
  status := Process( folder, KbShell(), InputTextNone(), OutputTextNone(),
                     Concatenation( [ "-c", command, KbProgram ], arguments ) );
  content := StringFile( place( "messages" ) );
  if status in [ 126, 127 ] then
    ErrorNoReturn( "kb: the program ", KbProgram, " can't be run: set KbProgram to its path\n", content );
  fi;
  return rec( status := status, out := StringFile( place( "output" ) ), messages := content );
end;

KbLines := text -> Filtered( SplitString( text, "\n" ), line -> line <> "" );

# A printed word as errors have it: of a long one its two ends.
KbShortened := function( word )
  local length;
  length := Length( word );
  if length <= 80 then
    return word;
  fi;
  return Concatenation( word{ [ 1 .. 50 ] }, " .. ", word{ [ length - 19 .. length ] },
                        " (", String( Number( word, byte -> byte = '*' ) + 1 ), " letters)" );
end;

# What a line of status 2 says, in words.
KbUndecided := function( line, system )
  local parts, evidence, counted;
  parts := List( SplitString( line, " " ), KbShortened );
  evidence := Concatenation( "; the evidence is in ", system.file, ".kblog and ", system.file, ".kbprog" );
  if parts[2] = "rules" then
    return Concatenation( "the limit of lines (maxRules) is reached, and ", parts[3], " = ", parts[4],
                          " is still to be entered", evidence );
  elif parts[2] = "length" then
    return Concatenation( "a left side would have more letters than the limit (maxLen): ", parts[3],
                          " = ", parts[4], " is still to be entered", evidence );
  elif parts[2] = "diffs" then
    return Concatenation( "the limit of word differences (maxDiffs) is reached: ", parts[3],
                          ", of ", parts[4], " and ", parts[5], ", isn't kept", evidence,
                          " and ", system.file, ".diff" );
  fi;
  counted := JoinStringsWithSeparator( parts{ [ 3 .. Length( parts ) ] }, " " );
  return Concatenation( "an automaton has more states than the limit (maxStates): ", counted, evidence );
end;

# Ends with an error in words where the program hasn't answered. What a long run
# tells of itself stands before its message.
KbAnswered := function( came, system )
  local lines, said;
  if came.status = 0 then
    return came;
  fi;
  lines := KbLines( came.out );
  said := Concatenation( [ "" ], KbLines( came.messages ) );
  said := said[Length( said )];
  if came.status = 1 then
    ErrorNoReturn( "kb: refused: ", said );
  elif came.status = 2 then
    ErrorNoReturn( "kb: undecided: ", KbUndecided( lines[Length( lines )], system ) );
  elif came.status = 3 then
    ErrorNoReturn( "kb: no: ", lines[Length( lines )] );
  elif came.status = 4 then
    ErrorNoReturn( "kb: memory ran out" );
  fi;
  ErrorNoReturn( "kb: status ", came.status, ": ", came.messages );
end;

# The options of the command line.
KbArguments := function( options )
  local arguments, row;
  arguments := [];
  for row in [ [ "maxRules", "--max-rules" ], [ "maxLen", "--max-len" ], [ "maxDiffs", "--max-diffs" ],
               [ "maxStates", "--max-states" ], [ "workers", "--workers" ] ] do
    if IsBound( options.( row[1] ) ) then
      Append( arguments, [ row[2], String( options.( row[1] ) ) ] );
    fi;
  od;
  return arguments;
end;

# The one option of wordreduce.
KbWorkers := function( options )
  if IsBound( options.workers ) then
    return KbArguments( rec( workers := options.workers ) );
  fi;
  return [];
end;

# A number as the program takes it.
KbIsNumber := number -> IsInt( number ) and number >= 0;

# The options that are given, if any.
KbOptions := function( given )
  local name;
  if given = [] then
    return rec();
  elif Length( given ) > 1 or not IsRecord( given[1] ) then
    ErrorNoReturn( "kb: the options are one record" );
  fi;
  for name in RecNames( given[1] ) do
    if not name in [ "maxRules", "maxLen", "maxDiffs", "maxStates", "workers", "order", "weights" ] then
      ErrorNoReturn( "kb: there is no option ", name );
    elif name = "weights" and not ( IsDenseList( given[1].weights ) and ForAll( given[1].weights, KbIsNumber ) ) then
      ErrorNoReturn( "kb: the option weights must be a list of numbers" );
    elif not name in [ "order", "weights" ] and not KbIsNumber( given[1].( name ) ) then
      ErrorNoReturn( "kb: the option ", name, " must be a number" );
    fi;
  od;
  return given[1];
end;
