-- | Functions on lists that a library has: groups, windows, joins, folds with a memory.
module ListTools
  ( groupWith
  , windows
  , intersperse
  , intercalate
  , splitOn
  , trim
  , stripPrefix
  , tails
  , inits
  , scanLeft
  , scanRight
  , lookupBy
  , deleteFirst
  , nub
  , initOf
  , palindrome
  , replaceAll
  , wrap
  , longest
  ) where

import Prelude hiding (length, take, drop)
import Nat

-- | Parts a list where two neighbours do not go together.
groupWith :: (a -> a -> Bool) -> [a] -> [[a]]
groupWith _ [] = []
groupWith same (x : xs) = go [x] x xs
  where
    go acc _ [] = [reverse acc]
    go acc y (z : zs)
      | same y z = go (z : acc) z zs
      | otherwise = reverse acc : go [z] z zs

windows :: Nat -> [a] -> [[a]]
windows n xs = case xs of
  [] -> []
  _ : rest
    | length here == n -> here : windows n rest
    | otherwise -> []
    where
      here = take n xs

intersperse :: a -> [a] -> [a]
intersperse sep (x : rest@(_ : _)) = x : sep : intersperse sep rest
intersperse _ xs = xs

intercalate :: [a] -> [[a]] -> [a]
intercalate sep = concat . intersperse sep

splitOn :: Eq a => a -> [a] -> [[a]]
splitOn sep text = case break' text of
  (word, []) -> [word]
  (word, _ : rest) -> word : splitOn sep rest
  where
    break' [] = ([], [])
    break' (x : xs)
      | x == sep = ([], x : xs)
      | otherwise = let (front, back) = break' xs in (x : front, back)

trim :: (a -> Bool) -> [a] -> [a]
trim blank = ends . ends
  where
    ends = reverse . dropWhile blank

stripPrefix :: Eq a => [a] -> [a] -> Maybe [a]
stripPrefix [] ys = Just ys
stripPrefix (x : xs) (y : ys) | x == y = stripPrefix xs ys
stripPrefix _ _ = Nothing

tails :: [a] -> [[a]]
tails xs = xs : case xs of
  [] -> []
  _ : rest -> tails rest

inits :: [a] -> [[a]]
inits [] = [[]]
inits (x : xs) = [] : map (x :) (inits xs)

scanLeft :: (b -> a -> b) -> b -> [a] -> [b]
scanLeft f acc list = acc : case list of
  [] -> []
  x : xs -> scanLeft f (f acc x) xs

scanRight :: (a -> b -> b) -> b -> [a] -> [b]
scanRight _ z [] = [z]
scanRight f z (x : xs) = case scanRight f z xs of
  rest@(y : _) -> f x y : rest
  [] -> []

lookupBy :: (k -> k -> Bool) -> k -> [(k, v)] -> Maybe v
lookupBy same k = foldr (\(k', v) rest -> if same k k' then Just v else rest) Nothing

deleteFirst :: Eq a => a -> [a] -> [a]
deleteFirst _ [] = []
deleteFirst x (y : ys) = if x == y then ys else y : deleteFirst x ys

nub :: Eq a => [a] -> [a]
nub [] = []
nub (x : xs) = x : nub (filter (/= x) xs)

initOf :: [a] -> [a]
initOf (x : xs@(_ : _)) = x : initOf xs
initOf _ = []

palindrome :: Eq a => [a] -> Bool
palindrome xs = xs == reverse xs

replaceAll :: Eq a => [a] -> [a] -> [a] -> [a]
replaceAll old new text = go (length text) text
  where
    go 0 xs = xs
    go _ [] = []
    go n list@(x : xs) = case stripPrefix old list of
      Just rest -> new ++ go (n - 1) rest
      Nothing -> x : go (n - 1) xs

-- | Puts words into lines of a width; a word that is too long has a line of its own.
wrap :: Nat -> [[a]] -> [[[a]]]
wrap width = lines' [] 0
  where
    lines' line _ [] = if null line then [] else [reverse line]
    lines' line used (w : ws)
      | null line = lines' [w] (length w) ws
      | used + 1 + length w <= width = lines' (w : line) (used + 1 + length w) ws
      | otherwise = reverse line : lines' [w] (length w) ws

longest :: [[a]] -> [a]
longest = foldr (\xs best -> if length xs >= length best then xs else best) []

-- >>> groupWith (<=) [1, 2, 1, 3, 0 :: Nat]
-- [[1,2],[1,3],[0]]
-- >>> windows 2 [1, 2, 3 :: Nat]
-- [[1,2],[2,3]]
-- >>> intercalate [0] [[1], [2, 3], [4 :: Nat]]
-- [1,0,2,3,0,4]
-- >>> splitOn 0 [1, 0, 2, 3, 0 :: Nat]
-- [[1],[2,3],[]]
-- >>> trim (== 0) [0, 1, 0, 2, 0 :: Nat]
-- [1,0,2]
-- >>> tails [True, False]
-- [[True,False],[False],[]]
-- >>> inits [True, False]
-- [[],[True],[True,False]]
-- >>> scanLeft (+) 0 [1, 2, 3 :: Nat]
-- [0,1,3,6]
-- >>> scanRight (+) 0 [1, 2, 3 :: Nat]
-- [6,5,3,0]
-- >>> nub [1, 2, 1, 3, 2 :: Nat]
-- [1,2,3]
-- >>> palindrome [1, 2, 1 :: Nat]
-- True
-- >>> replaceAll [1, 2] [9] [1, 2, 3, 1, 2 :: Nat]
-- [9,3,9]
-- >>> wrap 3 [[True], [False], [True, True]]
-- [[[True],[False]],[[True,True]]]
-- >>> longest [[1], [2, 3], [4 :: Nat]]
-- [2,3]
-- >>> initOf [1, 2, 3 :: Nat]
-- [1,2]
