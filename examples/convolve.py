# The convolution of an image with a small matrix of taps, as far as the taps lie inside the image.
# Two loops go over the taps alone; all pixels of one tap are one array operation.
import numpy as np


#pythran export convolve(int64[:,:], int64[:,:])
#pythran export convolve(int64[::,::], int64[::,::])
def convolve(image, taps):
    """A new image, smaller than the given one by the extents of the taps less one."""
    rows = image.shape[0] - taps.shape[0] + 1
    columns = image.shape[1] - taps.shape[1] + 1
    out = np.zeros((rows, columns), dtype=np.int64)
    for i in range(taps.shape[0]):
        for j in range(taps.shape[1]):
            # A convolution goes over its taps from the end; from the start it is a correlation.
            out += taps[-1 - i, -1 - j] * image[i:i + rows, j:j + columns]
    return out
