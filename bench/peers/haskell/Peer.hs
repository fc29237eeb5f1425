-- What a user of GHC would write for the scripts of `bench/compare`.
module Main (main) where

import Control.Concurrent (runInUnboundThread, threadDelay)
import Control.Concurrent.Async
import Control.Concurrent.STM
import Control.Exception
import Control.Monad
import Data.IORef
import System.Environment

-- The work is done in an unbound thread: from and to the thread of `main`, GHC would change threads of the system each time.
main :: IO ()
main = runInUnboundThread $ do
  [what, number] <- getArgs
  let count = read number :: Int
  case what of
    "pipe" -> do
      queue <- newTBQueueIO 64
      let put = forM_ [0 .. count - 1] $ \i -> atomically (writeTBQueue queue i)
          get = replicateM_ count (atomically (readTBQueue queue))
      mapM async [put, put, get, get] >>= mapM_ wait
    "spawn" -> forM_ [0 .. count - 1] $ \i -> async (pure i) >>= wait
    "cancel" -> do
      finalized <- newIORef (0 :: Int)
      forM_ [0 .. count - 1] $ \_ -> do
        fiber <- async (forever (threadDelay 1000000000) `onException` modifyIORef' finalized (+ 1))
        cancel fiber
    "masks" -> do
      kept <- newIORef (0 :: Int)
      forM_ [0 .. count - 1] $ \i -> mask $ \restore -> restore (writeIORef kept i)
    _ -> error "pipe, spawn, cancel or masks"
