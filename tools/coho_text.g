# CohoText(G): the text that `coho` reads for G, a p-group of order 1 or a power of 2, 3, 5 or 7. G is a pc
# group, or a group of permutations or matrices for which SpecialPcgs(G) answers.
#
#     gap> Read("tools/coho_text.g");
#     gap> PrintTo("group.coho", CohoText(SmallGroup(32, 6)));
#
# g1, g2, .. are the members of SpecialPcgs(G). It refines the lower exponent-p central series, so that for
# j > i the word of [gj,gi] is one in generators after gj, as the text must have it. In both Comm(a, b) is
# a^-1*b^-1*a*b.
CohoText := function(G)
  local pcgs, prime, name, word, line, text, i, j;
  if not IsPGroup(G) then
    Error("the group is no p-group");
  fi;
  pcgs := SpecialPcgs(G);
  prime := 2;
  if Length(pcgs) > 0 then
    prime := PrimePGroup(G);
  fi;
  name := k -> Concatenation("g", String(k));
  word := function(element)
    local exponents, factors, k;
    exponents := ExponentsOfPcElement(pcgs, element);
    factors := [];
    for k in [1 .. Length(pcgs)] do
      if exponents[k] = 1 then
        Add(factors, name(k));
      elif exponents[k] > 1 then
        Add(factors, Concatenation(name(k), "^", String(exponents[k])));
      fi;
    od;
    return JoinStringsWithSeparator(factors, "*");
  end;
  text := Concatenation("pgroup 1\nprime ", String(prime), "\ngens ", String(Length(pcgs)), "\n");
  line := function(left, element)
    if not IsOne(element) then
      Append(text, Concatenation(left, " = ", word(element), "\n"));
    fi;
  end;
  for i in [1 .. Length(pcgs)] do
    line(Concatenation(name(i), "^", String(prime)), pcgs[i] ^ prime);
  od;
  for j in [1 .. Length(pcgs)] do
    for i in [1 .. j - 1] do
      line(Concatenation("[", name(j), ",", name(i), "]"), Comm(pcgs[j], pcgs[i]));
    od;
  od;
  return text;
end;
