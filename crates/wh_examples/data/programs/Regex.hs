-- | Regular expressions, matched by their derivatives (Brzozowski 1964).
module Regex
  ( Letter (..)
  , Regex (..)
  , nullable
  , derive
  , matches
  , alt
  , sequ
  , simplify
  , deriveAll
  , plus
  , optional
  , power
  , word
  , reverseRegex
  , isEmptySet
  , size
  ) where

import Nat

data Letter = A | B | C
  deriving (Eq, Show)

data Regex
  = None
  | Eps
  | Sym Letter
  | Alt Regex Regex
  | Seq Regex Regex
  | Star Regex
  deriving (Eq, Show)

-- | Whether the empty word is matched.
nullable :: Regex -> Bool
nullable None = False
nullable Eps = True
nullable (Sym _) = False
nullable (Alt r s) = nullable r || nullable s
nullable (Seq r s) = nullable r && nullable s
nullable (Star _) = True

-- | What is to come behind a first letter.
derive :: Letter -> Regex -> Regex
derive _ None = None
derive _ Eps = None
derive c (Sym d)
  | c == d = Eps
  | otherwise = None
derive c (Alt r s) = Alt (derive c r) (derive c s)
derive c (Seq r s)
  | nullable r = Alt (Seq (derive c r) s) (derive c s)
  | otherwise = Seq (derive c r) s
derive c (Star r) = Seq (derive c r) (Star r)

matches :: Regex -> [Letter] -> Bool
matches r [] = nullable r
matches r (c : cs) = matches (derive c r) cs

-- | An alternative without parts that match nothing.
alt :: Regex -> Regex -> Regex
alt None s = s
alt r None = r
alt r s
  | r == s = r
  | otherwise = Alt r s

sequ :: Regex -> Regex -> Regex
sequ None _ = None
sequ _ None = None
sequ Eps s = s
sequ r Eps = r
sequ r s = Seq r s

simplify :: Regex -> Regex
simplify (Alt r s) = alt (simplify r) (simplify s)
simplify (Seq r s) = sequ (simplify r) (simplify s)
simplify (Star r) = case simplify r of
  None -> Eps
  Eps -> Eps
  Star r' -> Star r'
  r' -> Star r'
simplify r = r

-- | The expressions along a word, each made simpler.
deriveAll :: Regex -> [Letter] -> [Regex]
deriveAll r [] = [r]
deriveAll r (c : cs) = r : deriveAll (simplify (derive c r)) cs

plus :: Regex -> Regex
plus r = Seq r (Star r)

optional :: Regex -> Regex
optional = Alt Eps

power :: Nat -> Regex -> Regex
power 0 _ = Eps
power n r = Seq r (power (n - 1) r)

word :: [Letter] -> Regex
word = foldr (\c r -> Seq (Sym c) r) Eps

reverseRegex :: Regex -> Regex
reverseRegex (Alt r s) = Alt (reverseRegex r) (reverseRegex s)
reverseRegex (Seq r s) = Seq (reverseRegex s) (reverseRegex r)
reverseRegex (Star r) = Star (reverseRegex r)
reverseRegex r = r

-- | Whether no word at all is matched.
isEmptySet :: Regex -> Bool
isEmptySet None = True
isEmptySet (Alt r s) = isEmptySet r && isEmptySet s
isEmptySet (Seq r s) = isEmptySet r || isEmptySet s
isEmptySet _ = False

size :: Regex -> Nat
size (Alt r s) = 1 + size r + size s
size (Seq r s) = 1 + size r + size s
size (Star r) = 1 + size r
size _ = 1

-- >>> matches (Star (Seq (Sym A) (Sym B))) [A, B, A, B]
-- True
-- >>> matches (Star (Seq (Sym A) (Sym B))) [A, B, A]
-- False
-- >>> simplify (derive A (Seq (Sym A) (Star (Sym B))))
-- Star (Sym B)
-- >>> deriveAll (word [A, B]) [A, B]
-- [Seq (Sym A) (Seq (Sym B) Eps),Sym B,Eps]
-- >>> matches (power 3 (Alt (Sym A) (Sym C))) [A, C, A]
-- True
-- >>> reverseRegex (word [A, B])
-- Seq (Seq Eps (Sym B)) (Sym A)
-- >>> isEmptySet (Seq (Sym A) None)
-- True
-- >>> size (plus (optional (Sym C)))
-- 8
