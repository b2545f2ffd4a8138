#############################################################################
##
##  systems.g: the objects that kb.g gives back for a presentation. Their fields
##  are read as those of a record, and they print as one line
##
#############################################################################

# The filter of systems. It is made once, so that a system stays one where these
# files are read again.
if not IsBound( IsKbSystem ) then
  IsKbSystem := NewCategory( "IsKbSystem", IsObject );
fi;
if not IsBound( KbSystemType ) then
  KbSystemType := NewType( NewFamily( "KbSystemsFamily", IsKbSystem ), IsKbSystem and IsComponentObjectRep );
fi;

# A system from the record of its fields.
KbAsSystem := fields -> Objectify( KbSystemType, fields );

# Stops with an error where a system hasn't the field.
InstallMethod( \., "for a system of kb", [ IsKbSystem, IsPosInt ], function( system, place )
  if not IsBound( system!.( NameRNam( place ) ) ) then
    ErrorNoReturn( "kb: the system has no field ", NameRNam( place ) );
  fi;
  return system!.( NameRNam( place ) );
end );

InstallMethod( IsBound\., "for a system of kb", [ IsKbSystem, IsPosInt ],
  { system, place } -> IsBound( system!.( NameRNam( place ) ) ) );

# Refuses what is no system of these functions with these fields. `makers` are
# the functions that make one, in the words of the error.
KbNeedSystem := function( system, fields, makers )
  if not IsKbSystem( system ) or ForAny( fields, field -> not IsBound( system.( field ) ) ) then
    ErrorNoReturn( "kb: a system of ", makers, " is needed" );
  fi;
end;

# Refuses a system that has no word acceptor, and what is none.
KbNeedAcceptor := function( system )
  KbNeedSystem( system, [ "wordAcceptor" ], "KbComplete or KbAutomaticStructure" );
end;

# "group" or "monoid", as which a system's presentation is taken.
KbKind := function( system )
  if system.isGroup then
    return "group";
  fi;
  return "monoid";
end;

# The group or monoid of a system in the words of an error.
KbDescribed := system -> Concatenation( "the ", KbKind( system ), " on the generators ", String( system.generators ) );

# A number and what is counted, as "1 rule" and "2 rules".
KbCounted := function( number, what )
  if number = 1 then
    return Concatenation( "1 ", what );
  fi;
  return Concatenation( String( number ), " ", what, "s" );
end;

# What a system is, in words: of which group or monoid stands behind it.
KbTitle := function( system )
  if IsBound( system.multipliers ) then
    return "automatic structure of";
  elif IsBound( system.index ) then
    return ReplacedString( Concatenation( KbCounted( system.index, "right coset" ), " in" ),
                           "infinity", "infinitely many" );
  fi;
  return "complete system of";
end;

# How large what a system has is.
KbExtent := function( system )
  if IsBound( system.multipliers ) then
    return Concatenation( ", ", KbCounted( system.wordAcceptor.states.size, "state" ) );
  elif IsBound( system.index ) then
    return "";
  fi;
  return Concatenation( ", ", KbCounted( Length( system.wordsOfRules ), "rule" ) );
end;

# A system's group or monoid as one line has it. More than six generators are only
# counted.
KbOn := function( system )
  local count;
  count := Length( system.generators );
  if count > 6 then
    return Concatenation( KbKind( system ), " on ", String( count ), " generators" );
  fi;
  return Concatenation( KbKind( system ), " on ", String( system.generators ) );
end;

# A system as one line.
KbLine := system -> Concatenation( "<kb: ", KbTitle( system ), " the ", KbOn( system ), KbExtent( system ), ">" );

InstallMethod( String, "for a system of kb", [ IsKbSystem ], KbLine );

InstallMethod( ViewString, "for a system of kb", [ IsKbSystem ], KbLine );

InstallMethod( ViewObj, "for a system of kb", [ IsKbSystem ], function( system )
  Print( KbLine( system ) );
end );

InstallMethod( PrintObj, "for a system of kb", [ IsKbSystem ], function( system )
  Print( KbLine( system ) );
end );

InstallMethod( Display, "for a system of kb", [ IsKbSystem ], function( system )
  Print( KbLine( system ), "\n" );
end );
