# Work on a grey image by whole-array operations: a threshold, a stretch of its range, a mask.
# A division of an array by 0 is no fault: a flat image stretches to zeros.
import numpy as np


#pythran export binary(int64[:,:], int64)
#pythran export binary(int64[::,::], int64)
def binary(image, level):
    """White where the image is at least as bright as the level, and how much of it is."""
    bright = image >= level
    return np.where(bright, 255, 0), np.sum(bright)


#pythran export stretch(int64[:,:])
#pythran export stretch(int64[::,::])
def stretch(image):
    """Spreads the range of the image to 0 up to 255. An image without pixels has no least one."""
    low = np.min(image)
    high = np.max(image)
    return (image - low) * 255 // (high - low)


#pythran export paste(int64[:,:], int64[:,:], bool[:,:])
#pythran export paste(int64[::,::], int64[::,::], bool[::,::])
def paste(image, other, mask):
    """Takes the pixels of the other image where the mask is set, in place."""
    image[:] = np.where(mask, other, image)
    return np.any(mask), np.all(mask)
