-- | Definitions within definitions, down to the third level, and names that hide others.
module Nesting
  ( spread
  , histogram
  , justify
  , triangle
  , schedule
  , shadows
  , power
  , table
  , convert
  , levels
  ) where

import Prelude hiding (length, replicate)
import Nat

-- | How far the members of a list lie apart: the greatest difference of two that stand side by side.
spread :: [Nat] -> Nat
spread list = widest (gaps list)
  where
    gaps (x : y : rest) = distance x y : gaps (y : rest)
      where
        distance a b = high - low
          where
            high = max a b
            low = min a b
    gaps _ = []
    widest = foldr max 0

-- | How often each number below the bound stands in a list.
histogram :: Nat -> [Nat] -> [Nat]
histogram bound list = map count below
  where
    below = upTo bound
      where
        upTo 0 = []
        upTo n = upTo before ++ [before]
          where
            before = n - 1
    count k = length (filter same list)
      where
        same x = x == k

-- | Rows of marks, filled up in front to one width.
justify :: [Nat] -> [[Bool]]
justify rows = map row rows
  where
    width = foldr max 0 rows
    row n = pad ++ marks
      where
        marks = replicate n True
        pad = replicate missing False
          where
            missing = width - n

-- | The first rows of Pascal's triangle.
triangle :: Nat -> [[Nat]]
triangle n = go n [1]
  where
    go 0 _ = []
    go k row = row : go (k - 1) (next row)
      where
        next r = sums (0 : r)
          where
            sums (a : rest@(b : _)) = (a + b) : sums rest
            sums [a] = [a]
            sums [] = []

-- | Gives tasks to two machines, each to the one with less to do; what each has to do in the end.
schedule :: [Nat] -> (Nat, Nat)
schedule tasks = place tasks (0, 0)
  where
    place [] loads = loads
    place (t : ts) (a, b) = place ts loads
      where
        loads
          | a <= b = (onFirst, b)
          | otherwise = (a, onSecond)
          where
            onFirst = a + t
            onSecond = b + t

-- | Each @x@ is another one.
shadows :: Nat -> Nat
shadows x = let y = inner (x + 1) in x + y
  where
    inner x = twice (x + 1)
      where
        twice x = x + x

-- | A power by squares. The root is wanted in the last case alone.
power :: Nat -> Nat -> Nat
power m n
  | n == 0 = 1
  | odd' n = m * power m (n - 1)
  | otherwise = root * root
  where
    root = power m (half n)
    odd' 0 = False
    odd' 1 = True
    odd' (Succ (Succ k)) = odd' k
    half (Succ (Succ k)) = 1 + half k
    half _ = 0

-- | The products of all numbers of two lists, a row for each of the first one.
table :: [Nat] -> [Nat] -> [[Nat]]
table rows columns = rowsOf rows
  where
    rowsOf [] = []
    rowsOf (r : rs) = cells columns : rowsOf rs
      where
        cells [] = []
        cells (c : cs) = times r c : cells cs
          where
            times a b = a * b

-- | The digits of a number to a base, the last one first; the base is two at least.
convert :: Nat -> Nat -> [Nat]
convert base n = digits n n
  where
    digits 0 _ = []
    digits _ 0 = []
    digits (Succ fuel) k = rest : digits fuel quotient
      where
        (quotient, rest) = divide 0 k
          where
            divide q r
              | r < base' = (q, r)
              | otherwise = divide (q + 1) (r - base')
            base' = max 2 base

levels :: Nat -> Nat
levels n = first n
  where
    first 0 = 0
    first a = second a + first (a - 1)
      where
        second 0 = 0
        second b = third b + second (b - 1)
          where
            third 0 = 1
            third c = 1 + third (c - 1)

-- >>> spread [1, 4, 2, 9]
-- 7
-- >>> histogram 3 [0, 2, 2, 1, 2]
-- [1,1,3]
-- >>> justify [1, 3]
-- [[False,False,True],[True,True,True]]
-- >>> triangle 4
-- [[1],[1,1],[1,2,1],[1,3,3,1]]
-- >>> schedule [3, 2, 2, 4]
-- (7,4)
-- >>> shadows 3
-- 13
-- >>> power 2 4
-- 16
-- >>> table [1, 2] [3, 4]
-- [[3,4],[6,8]]
-- >>> convert 2 6
-- [0,1,1]
-- >>> levels 3
-- 16
