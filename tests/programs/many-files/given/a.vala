// nothing stands here
