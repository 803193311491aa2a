"""An exchange's day of any size: wishes are cut into groups, groups become swaps, swaps are settled.

`tables` and `wishes` read files. `cut` chooses the groups, `thinning` those of a part that is too
large, and `cutting` has parts thinned side by side. `day` goes from step to step, each of which
`state` keeps. `simulated` and `wallets` are two ways to settle. `serving`, `api`, `keeper` and `store`
are the service, `client` and `remote` a user's wallet elsewhere, and `chain_server` simulated chains.
`judging` and `page` tell of a day that is over. `campaign` runs many numbers.
"""
