"""`afdx campaign NET --merge DIR..`: puts the parts that `--part` made together, as one campaign over all their seeds. No program is run."""
import argparse

from afdx import files, model
from afdx.reckon.limits import limits_of
from afdx.runs import campaign_record, merge_parts
from afdx.runs.campaign_folder import Folder
from afdx.runs.campaign_network import CampaignNetwork
from afdx.runs.campaign_record import Record
from afdx.runs.seeds_campaign import Campaign


def merged_of(words: argparse.Namespace) -> tuple[Campaign, Record]:
    """The campaign of all parts, and its record as far as it does not depend on the files. The folder that is written is made."""
    folders = merge_parts.folders_of(words.merge, words.net)
    first, all_seeds = folders[0].record, folders[0].all_seeds
    net = CampaignNetwork(words.net, None, first.until_ns)
    limits = limits_of(words.limits, net) if words.limits else {}
    campaign = Campaign(net, limits, all_seeds, first.offsets)
    campaign.merged, campaign.done = merge_parts.merged(net, folders), len(all_seeds)
    for key, limit in limits.items():
        if campaign.merged.latencies[key].greatest > limit.most_ns():
            campaign.broken[key] = 0
    files.ready([words.junit] if words.junit else [])
    words.folder, words.histograms = Folder(words.output, words.replace), folders[0].has_counts()
    own = folders[0].words()
    return campaign, Record(
        model.checksum(net.text), first.program, net.until_ns, all_seeds.start, len(all_seeds), first.offsets, first.offset_rule, own, {}
    )


def write_record(folder: Folder, record: Record) -> None:
    folder.write(campaign_record.NAME, record._replace(files=dict(sorted(folder.sums.items()))).text())
    folder.close()
