# Arrays of more dimensions: a batch of images in several channels, as one array of rank 4, is made
# smaller by taking the greatest, or the sum, of each square of two by two pixels.
import numpy as np


#pythran export greatest(int64[:,:,:,:])
#pythran export greatest(int64[::,::,::,::])
def greatest(batch):
    """The greatest of each square. Odd numbers of rows or columns are a ValueError."""
    upper = np.maximum(batch[:, :, ::2, ::2], batch[:, :, ::2, 1::2])
    lower = np.maximum(batch[:, :, 1::2, ::2], batch[:, :, 1::2, 1::2])
    return np.maximum(upper, lower)


#pythran export channel_sums(int64[:,:,:,:])
#pythran export channel_sums(int64[::,::,::,::])
def channel_sums(batch):
    """For each channel of each image the sum of its pixels."""
    sums = np.zeros((batch.shape[0], batch.shape[1]), dtype=np.int64)
    for i in range(batch.shape[0]):
        for k in range(batch.shape[1]):
            sums[i, k] = np.sum(batch[i, k])
    return sums
