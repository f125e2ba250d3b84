-- | Tries: sets and maps of words over a small alphabet.
module Tries
  ( Letter (..)
  , Trie (..)
  , emptyTrie
  , insert
  , search
  , member
  , delete
  , wordsOf
  , sizeOf
  , mapTrie
  , unionTries
  , withPrefix
  , fromWords
  , longestPrefix
  , isEmpty
  , prune
  , countWords
  , suffixes
  , occursIn
  , autocomplete
  ) where

import Prelude hiding (length, take)
import Nat

data Letter = A | B
  deriving (Eq, Ord, Show)

-- | What stands for the word that leads here, and the words that begin with A and with B.
data Trie v = Tip | Node (Maybe v) (Trie v) (Trie v)
  deriving (Eq, Show)

emptyTrie :: Trie v
emptyTrie = Tip

insert :: [Letter] -> v -> Trie v -> Trie v
insert [] v Tip = Node (Just v) Tip Tip
insert [] v (Node _ a b) = Node (Just v) a b
insert (A : w) v Tip = Node Nothing (insert w v Tip) Tip
insert (B : w) v Tip = Node Nothing Tip (insert w v Tip)
insert (A : w) v (Node m a b) = Node m (insert w v a) b
insert (B : w) v (Node m a b) = Node m a (insert w v b)

search :: [Letter] -> Trie v -> Maybe v
search _ Tip = Nothing
search [] (Node m _ _) = m
search (A : w) (Node _ a _) = search w a
search (B : w) (Node _ _ b) = search w b

member :: [Letter] -> Trie v -> Bool
member w t = case search w t of
  Nothing -> False
  Just _ -> True

-- | A node, or nothing where nothing is in it.
node :: Maybe v -> Trie v -> Trie v -> Trie v
node Nothing Tip Tip = Tip
node m a b = Node m a b

delete :: [Letter] -> Trie v -> Trie v
delete _ Tip = Tip
delete [] (Node _ a b) = node Nothing a b
delete (A : w) (Node m a b) = node m (delete w a) b
delete (B : w) (Node m a b) = node m a (delete w b)

wordsOf :: Trie v -> [[Letter]]
wordsOf Tip = []
wordsOf (Node m a b) = here ++ map (A :) (wordsOf a) ++ map (B :) (wordsOf b)
  where
    here = case m of
      Nothing -> []
      Just _ -> [[]]

sizeOf :: Trie v -> Nat
sizeOf Tip = 0
sizeOf (Node m a b) = maybe 0 (const 1) m + sizeOf a + sizeOf b

mapTrie :: (v -> w) -> Trie v -> Trie w
mapTrie _ Tip = Tip
mapTrie f (Node m a b) = Node (change m) (mapTrie f a) (mapTrie f b)
  where
    change Nothing = Nothing
    change (Just v) = Just (f v)

unionTries :: (v -> v -> v) -> Trie v -> Trie v -> Trie v
unionTries _ Tip u = u
unionTries _ t Tip = t
unionTries f (Node m a b) (Node n c d) = Node (join m n) (unionTries f a c) (unionTries f b d)
  where
    join Nothing y = y
    join x Nothing = x
    join (Just x) (Just y) = Just (f x y)

-- | The trie of what can stand behind a word.
withPrefix :: [Letter] -> Trie v -> Trie v
withPrefix [] t = t
withPrefix (c : w) t = case t of
  Tip -> Tip
  Node _ a b -> withPrefix w (if c == A then a else b)

fromWords :: [[Letter]] -> Trie Nat
fromWords ws = foldr (\w t -> insert w (length w) t) Tip ws

longestPrefix :: [Letter] -> Trie v -> [Letter]
longestPrefix [] _ = []
longestPrefix (c : w) t
  | isEmpty below = []
  | otherwise = c : longestPrefix w below
  where
    below = withPrefix [c] t

isEmpty :: Trie v -> Bool
isEmpty Tip = True
isEmpty _ = False

-- | Without the values that have not the property.
prune :: (v -> Bool) -> Trie v -> Trie v
prune _ Tip = Tip
prune p (Node m a b) = node kept (prune p a) (prune p b)
  where
    kept = case m of
      Just v | p v -> Just v
      _ -> Nothing

countWords :: [[Letter]] -> Trie Nat
countWords = foldr count Tip
  where
    count w t = insert w (1 + maybe 0 id (search w t)) t

suffixes :: [a] -> [[a]]
suffixes [] = [[]]
suffixes list@(_ : rest) = list : suffixes rest

occursIn :: [Letter] -> [Letter] -> Bool
occursIn pattern text = not (isEmpty (withPrefix pattern (fromWords (suffixes text))))

autocomplete :: Nat -> [Letter] -> Trie v -> [[Letter]]
autocomplete n w t = take n (map (w ++) (wordsOf (withPrefix w t)))

-- >>> wordsOf (fromWords [[A, B], [B], [A]])
-- [[A],[A,B],[B]]
-- >>> search [A, B] (fromWords [[A, B], [B]])
-- Just 2
-- >>> member [B] (delete [B] (fromWords [[A, B], [B]]))
-- False
-- >>> sizeOf (unionTries (+) (fromWords [[A]]) (fromWords [[A], [B]]))
-- 2
-- >>> longestPrefix [A, A, B] (fromWords [[A, A, A]])
-- [A,A]
-- >>> countWords [[A], [B], [A]]
-- Node Nothing (Node (Just 2) Tip Tip) (Node (Just 1) Tip Tip)
-- >>> occursIn [B, A] [A, B, A]
-- True
-- >>> autocomplete 1 [A] (fromWords [[A, B], [B]])
-- [[A,B]]
-- >>> mapTrie (> 1) (fromWords [[A], []])
-- Node (Just False) (Node (Just False) Tip Tip) Tip
-- >>> prune (> 1) (fromWords [[A], [A, B]])
-- Node Nothing (Node Nothing Tip (Node (Just 2) Tip Tip)) Tip
