package ifneeded peertext 1.0 [list load [file join $dir libpeertext_tcl.so] Peertext]
