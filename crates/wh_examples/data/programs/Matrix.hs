-- | Matrices as lists of rows.
module Matrix
  ( Matrix
  , transpose
  , addM
  , mulM
  , scale
  , identity
  , powerM
  , dot
  , trace
  , minor
  , permanent
  , mapM2
  , row
  , diagonal
  , rotateRight
  , fibByMatrix
  , pascal
  ) where

import Prelude hiding (length, replicate)
import Nat

type Matrix a = [[a]]

transpose :: Matrix a -> Matrix a
transpose [] = []
transpose [xs] = map (\x -> [x]) xs
transpose (xs : xss) = zipWith (:) xs (transpose xss)

addM :: Matrix Nat -> Matrix Nat -> Matrix Nat
addM = zipWith (zipWith (+))

dot :: [Nat] -> [Nat] -> Nat
dot xs ys = foldr (+) 0 (zipWith (*) xs ys)

mulM :: Matrix Nat -> Matrix Nat -> Matrix Nat
mulM a b = map (\xs -> map (dot xs) columns) a
  where
    columns = transpose b

scale :: Nat -> Matrix Nat -> Matrix Nat
scale k = map (map (* k))

-- | The rows of the unit matrix: each has its one a place further to the right.
identity :: Nat -> Matrix Nat
identity n = rows n
  where
    rows 0 = []
    rows (Succ k) = (replicate (n - Succ k) 0 ++ [1] ++ replicate k 0) : rows k

-- | A power by squares; the number is halved each time, and bounds the rounds, too.
powerM :: Nat -> Matrix Nat -> Matrix Nat
powerM n a = go n n a
  where
    go 0 _ _ = one
    go _ 0 _ = one
    go (Succ fuel) k b
      | isOdd k = mulM b (go fuel (half k) (mulM b b))
      | otherwise = go fuel (half k) (mulM b b)
    one = identity (length a)

half :: Nat -> Nat
half (Succ (Succ n)) = Succ (half n)
half _ = Zero

isOdd :: Nat -> Bool
isOdd Zero = False
isOdd (Succ n) = not (isOdd n)

trace :: Matrix Nat -> Nat
trace = foldr (+) 0 . diagonal

diagonal :: Matrix a -> [a]
diagonal [] = []
diagonal ([] : _) = []
diagonal ((x : _) : rest) = x : diagonal (map (drop' 1) rest)

drop' :: Nat -> [a] -> [a]
drop' 0 xs = xs
drop' _ [] = []
drop' n (_ : xs) = drop' (n - 1) xs

-- | The matrix without a row and a column, counted from 0.
minor :: Nat -> Nat -> Matrix a -> Matrix a
minor i j m = map (without j) (without i m)
  where
    without _ [] = []
    without 0 (_ : xs) = xs
    without k (x : xs) = x : without (k - 1) xs

-- | The permanent, along the first row.
permanent :: Matrix Nat -> Nat
permanent m = go (length m) m
  where
    go 0 _ = 1
    go (Succ k) (xs : rest) = along 0 xs
      where
        along _ [] = 0
        along j (y : ys) = y * go k (map (omit j) rest) + along (j + 1) ys
    go _ [] = 1
    omit 0 (_ : ys) = ys
    omit j (y : ys) = y : omit (j - 1) ys
    omit _ [] = []

mapM2 :: (a -> b) -> Matrix a -> Matrix b
mapM2 = map . map

row :: Nat -> Matrix a -> [a]
row _ [] = []
row 0 (xs : _) = xs
row n (_ : rest) = row (n - 1) rest

rotateRight :: Matrix a -> Matrix a
rotateRight = map reverse . transpose

fibByMatrix :: Nat -> Nat
fibByMatrix n = case powerM n [[1, 1], [1, 0]] of
  ((_ : f : _) : _) -> f
  _ -> 0

pascal :: Nat -> Matrix Nat
pascal 0 = []
pascal n = pascal (n - 1) ++ [line (n - 1)]
  where
    line 0 = [1]
    line k = zipWith (+) (0 : before) (before ++ [0])
      where
        before = line (k - 1)

-- >>> transpose [[1, 2, 3], [4, 5, 6 :: Nat]]
-- [[1,4],[2,5],[3,6]]
-- >>> mulM [[1, 2], [3, 4]] [[0, 1], [1, 0]]
-- [[2,1],[4,3]]
-- >>> identity 3
-- [[1,0,0],[0,1,0],[0,0,1]]
-- >>> powerM 3 [[1, 1], [1, 0]]
-- [[3,2],[2,1]]
-- >>> trace [[1, 2], [3, 4]]
-- 5
-- >>> minor 0 1 [[1, 2, 3], [4, 5, 6], [7, 8, 9 :: Nat]]
-- [[4,6],[7,9]]
-- >>> permanent [[1, 2], [3, 4]]
-- 10
-- >>> rotateRight [[1, 2], [3, 4 :: Nat]]
-- [[3,1],[4,2]]
-- >>> fibByMatrix 5
-- 5
-- >>> pascal 4
-- [[1],[1,1],[1,2,1],[1,3,3,1]]
