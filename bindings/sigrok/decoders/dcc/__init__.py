# SPDX-License-Identifier: MIT OR Apache-2.0
"""DCC (Digital Command Control) is the signal on the rails of a digital model railway (NMRA S-9.1, S-9.2; RCN-210 to
RCN-214). The decoder shows half-bits, the bits and bytes of packets, packets in words, refused packets with the reason,
lost packets with their causes, and the cutouts of RailCom. The polarity does not matter. Record the output of an
optocoupler at 400 kHz or more, best at 8 MHz.
"""
from .pd import Decoder
