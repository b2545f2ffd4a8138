_FSA := rec(
  isFSA := true,
  alphabet := rec(
    type := "product",
    size := 15,
    arity := 2,
    padding := _,
    base := rec(
      type := "identifiers",
      size := 3,
      format := "dense",
      names := [a,A,b]
    )
  ),
  states := rec(
    type := "simple",
    size := 5
  ),
  flags := ["DFA","minimized","BFS","accessible","trim"],
  initial := [1],
  accepting := [5],
  table := rec(
    format := "dense deterministic",
    numTransitions := 15,
    transitions := [
      [2,0,0,0,0,3,0,0,0,0,4,5,0,0,5],
      [2,0,0,0,0,0,0,0,0,0,4,5,0,0,5],
      [0,0,0,0,0,3,0,0,0,0,4,5,0,0,5],
      [2,0,0,0,0,3,0,0,0,0,0,0,0,0,0],
      [0,0,0,0,0,0,0,0,0,0,0,0,0,0,0]
    ]
  )
);
