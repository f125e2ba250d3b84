-- | Maps and sets as ordered lists.
module AssocMaps
  ( Map
  , insert
  , insertWith
  , find
  , findOr
  , remove
  , adjust
  , alter
  , unionWith
  , intersectionWith
  , keys
  , fromPairs
  , invert
  , groupBy
  , Set
  , addTo
  , union
  , intersection
  , difference
  , isSubset
  , unique
  , counts
  ) where

import Nat

type Map k v = [(k, v)]

insertWith :: Ord k => (v -> v -> v) -> k -> v -> Map k v -> Map k v
insertWith _ k v [] = [(k, v)]
insertWith f k v ((k', v') : rest)
  | k < k' = (k, v) : (k', v') : rest
  | k == k' = (k, f v v') : rest
  | otherwise = (k', v') : insertWith f k v rest

insert :: Ord k => k -> v -> Map k v -> Map k v
insert = insertWith const

find :: Ord k => k -> Map k v -> Maybe v
find _ [] = Nothing
find k ((k', v) : rest) = case compare k k' of
  LT -> Nothing
  EQ -> Just v
  GT -> find k rest

findOr :: Ord k => v -> k -> Map k v -> v
findOr def k m = maybe def id (find k m)

remove :: Eq k => k -> Map k v -> Map k v
remove k = filter ((/= k) . fst)

adjust :: Eq k => (v -> v) -> k -> Map k v -> Map k v
adjust f k = map (\(k', v) -> if k == k' then (k', f v) else (k', v))

-- | Changes what is there, or what is not.
alter :: Ord k => (Maybe v -> Maybe v) -> k -> Map k v -> Map k v
alter f k m = case f (find k m) of
  Nothing -> remove k m
  Just v -> insert k v m

unionWith :: Ord k => (v -> v -> v) -> Map k v -> Map k v -> Map k v
unionWith _ [] n = n
unionWith _ m [] = m
unionWith f m@((k, v) : m') n@((k', v') : n') = case compare k k' of
  LT -> (k, v) : unionWith f m' n
  EQ -> (k, f v v') : unionWith f m' n'
  GT -> (k', v') : unionWith f m n'

intersectionWith :: Ord k => (v -> w -> u) -> Map k v -> Map k w -> Map k u
intersectionWith f ((k, v) : m) ((k', w) : n)
  | k < k' = intersectionWith f m ((k', w) : n)
  | k > k' = intersectionWith f ((k, v) : m) n
  | otherwise = (k, f v w) : intersectionWith f m n
intersectionWith _ _ _ = []

keys :: Map k v -> [k]
keys = map fst

fromPairs :: Ord k => [(k, v)] -> Map k v
fromPairs = foldr (uncurry insert) []

invert :: Ord v => Map k v -> Map v [k]
invert = foldr (\(k, v) -> insertWith (++) v [k]) []

-- | Gathers members by what a function makes of them.
groupBy :: Ord k => (a -> k) -> [a] -> Map k [a]
groupBy f = foldr (\x -> insertWith (++) (f x) [x]) []

type Set a = [a]

addTo :: Ord a => a -> Set a -> Set a
addTo x [] = [x]
addTo x s@(y : ys) = case compare x y of
  LT -> x : s
  EQ -> s
  GT -> y : addTo x ys

union :: Ord a => Set a -> Set a -> Set a
union xs ys = foldr addTo ys xs

intersection :: Ord a => Set a -> Set a -> Set a
intersection (x : xs) (y : ys)
  | x == y = x : intersection xs ys
  | x < y = intersection xs (y : ys)
  | otherwise = intersection (x : xs) ys
intersection _ _ = []

difference :: Ord a => Set a -> Set a -> Set a
difference [] _ = []
difference xs [] = xs
difference (x : xs) (y : ys)
  | x < y = x : difference xs (y : ys)
  | x > y = difference (x : xs) ys
  | otherwise = difference xs ys

isSubset :: Ord a => Set a -> Set a -> Bool
isSubset xs ys = null (difference xs ys)

unique :: Ord a => [a] -> Set a
unique = foldr addTo []

counts :: Ord a => [a] -> Map a Nat
counts = foldl (\m x -> insertWith (+) x 1 m) []

-- >>> fromPairs [(3, True), (1, False), (3 :: Nat, False)]
-- [(1,False),(3,True)]
-- >>> find 2 [(1, True), (2 :: Nat, False)]
-- Just False
-- >>> unionWith (+) [(1, 2), (3, 4)] [(1, 5), (2 :: Nat, 6 :: Nat)]
-- [(1,7),(2,6),(3,4)]
-- >>> intersectionWith (,) [(1, True), (2, False)] [(2 :: Nat, 5 :: Nat)]
-- [(2,(False,5))]
-- >>> invert [(1, True), (2, False), (3 :: Nat, True)]
-- [(False,[2]),(True,[1,3])]
-- >>> groupBy (> 2) [1, 4, 2, 3 :: Nat]
-- [(False,[1,2]),(True,[4,3])]
-- >>> union [1, 3] [2, 3 :: Nat]
-- [1,2,3]
-- >>> difference [1, 2, 3] [2 :: Nat]
-- [1,3]
-- >>> isSubset [1, 3] [1, 2, 3 :: Nat]
-- True
-- >>> counts [True, False, True]
-- [(False,1),(True,2)]
-- >>> alter (maybe (Just 1) (const Nothing)) 2 [(2 :: Nat, 7 :: Nat)]
-- []
-- >>> findOr 0 True [(False, 4 :: Nat)]
-- 0
